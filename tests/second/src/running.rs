//! The running digest (order W4): a record that start, feed and finish update
//! where it stands. A byte is put into the unfinished block, and a block that
//! is full is taken in at once; nothing else of the message is kept.

use crate::digest::{sizes, Sponge};
use crate::numbers::{
    Counted, AFTER_FINISH, DIGEST, DONE, MESSAGE_LIMIT, NO_ROOM, TOO_LONG, UNKNOWN,
};
use crate::padding::padded;
use crate::readings::PRODUCT;

/// Room for the largest state and for the largest block (Table 1.4).
pub const STATE: usize = 72;
pub const BLOCK: usize = 16;

/// The record as a caller lends it, laid out as in C: it has no padding.
#[repr(C)]
#[derive(Clone, Copy, Debug, PartialEq, Eq)]
pub struct Record {
    /// Bytes fed.
    pub total: usize,
    pub instance: u32,
    /// 0 as long as there was no finish.
    pub finished: u32,
    pub state: [u8; STATE],
    pub block: [u8; BLOCK],
}

impl Record {
    /// All fields zero: no instance, so that it can't be fed.
    pub const ZERO: Record = Record {
        total: 0,
        instance: 0,
        finished: 0,
        state: [0; STATE],
        block: [0; BLOCK],
    };

    /// Its bytes as they stand in memory.
    pub fn bytes(&self) -> Vec<u8> {
        [
            &self.total.to_ne_bytes()[..],
            &self.instance.to_ne_bytes(),
            &self.finished.to_ne_bytes(),
            &self.state,
            &self.block,
        ]
        .concat()
    }

    /// The order's 14, then its 1; else state size and rate.
    fn usable(&self) -> Result<(usize, usize), u8> {
        if self.finished != 0 {
            return Err(AFTER_FINISH);
        }
        match sizes(self.instance as usize) {
            Some(shape) if self.total <= MESSAGE_LIMIT => Ok(shape),
            _ => Err(UNKNOWN),
        }
    }

    /// The unfinished block's bytes.
    fn unfinished(&self, rate: usize) -> Vec<u8> {
        self.block[..self.total % rate].to_vec()
    }
}

/// `bytes` at the start of a field of N bytes, zeros behind.
fn field<const N: usize>(bytes: &[u8]) -> [u8; N] {
    let mut whole = [0; N];
    whole[..bytes.len()].copy_from_slice(bytes);
    whole
}

/// Starts a digest, whatever the record held.
pub fn start(record: &mut Record, instance: usize) -> u8 {
    if sizes(instance).is_none() {
        return UNKNOWN;
    }
    *record = Record {
        instance: instance as u32,
        ..Record::ZERO
    };
    DONE
}

/// Takes bytes in, one after the other.
pub fn feed(record: &mut Record, bytes: &[u8]) -> u8 {
    let (size, rate) = match record.usable() {
        Err(number) => return number,
        Ok(shape) => shape,
    };
    if bytes.len() > MESSAGE_LIMIT - record.total {
        return TOO_LONG;
    }
    let mut sponge = Sponge::from_state(&PRODUCT, rate, &record.state[..size]);
    let mut block = record.unfinished(rate);
    for &byte in bytes {
        block.push(byte);
        if block.len() == rate {
            sponge.absorb(&block);
            block.clear();
        }
    }
    *record = Record {
        total: record.total + bytes.len(),
        instance: record.instance,
        finished: 0,
        state: field(sponge.state()),
        block: field(&block),
    };
    DONE
}

/// Gives the digest out, and the calls of the whole of it: one for each block
/// taken in before, and those made now.
pub fn finish(record: &mut Record, out: &mut [u8]) -> Counted {
    let (size, rate) = match record.usable() {
        Err(number) => return Counted::refused(number),
        Ok(shape) => shape,
    };
    if out.len() < DIGEST {
        return Counted::refused(NO_ROOM);
    }
    let mut sponge = Sponge::from_state(&PRODUCT, rate, &record.state[..size]);
    sponge.absorb(&padded(&record.unfinished(rate), rate));
    let (hash, calls) = sponge.squeeze();
    out[..DIGEST].copy_from_slice(&hash);
    *record = Record {
        total: record.total,
        instance: record.instance,
        finished: 1,
        ..Record::ZERO
    };
    Counted::done(record.total / rate + calls)
}

#[cfg(test)]
mod tests {
    use super::*;
    use crate::digest::{digest, instances};

    fn started(instance: usize) -> Record {
        let mut record = Record::ZERO;
        assert_eq!(start(&mut record, instance), DONE);
        record
    }

    fn message(length: usize) -> Vec<u8> {
        (0..length).map(|i| (7 * i + length) as u8).collect()
    }

    #[test]
    fn pieces_of_any_length_give_the_digest_and_its_count() {
        for instance in instances() {
            for length in [0, 1, 15, 16, 17, 64, 200] {
                for piece in [1, 3, 16, 512] {
                    let mut record = started(instance);
                    for bytes in message(length).chunks(piece) {
                        assert_eq!(feed(&mut record, bytes), DONE);
                    }
                    let (mut fed, mut whole) = ([0xa5; 40], [0xa5; 40]);
                    let answer = finish(&mut record, &mut fed);
                    assert_eq!(answer, digest(instance, &message(length), &mut whole));
                    assert_eq!(fed, whole);
                }
            }
        }
    }

    #[test]
    fn a_full_block_is_taken_in_at_once_and_nothing_stays_behind_it() {
        let mut record = started(8);
        feed(&mut record, &[0x33; 15]);
        assert_eq!(record.block[..15], [0x33; 15]);
        assert_eq!(record.state, [0; STATE]);
        feed(&mut record, &[0x33]);
        assert_eq!(record.block, [0; BLOCK]);
        assert_ne!(record.state[..48], [0; 48]);
        assert_eq!(record.state[48..], [0; 24]);
    }

    #[test]
    fn refusals_in_order_leave_the_record_and_write_nothing() {
        let long = vec![0; MESSAGE_LIMIT + 1];
        let full = Record {
            total: MESSAGE_LIMIT,
            ..started(1)
        };
        let over = Record {
            total: MESSAGE_LIMIT + 1,
            ..started(1)
        };
        let ended = Record {
            finished: 2,
            ..over
        };
        let cases = [
            (ended, AFTER_FINISH),
            (Record::ZERO, UNKNOWN),
            (over, UNKNOWN),
            (full, TOO_LONG),
            (started(3), TOO_LONG),
        ];
        for (record, number) in cases {
            let mut lent = record;
            assert_eq!(feed(&mut lent, &long), number);
            assert_eq!(lent, record);
        }
        for (record, number) in [(ended, AFTER_FINISH), (over, UNKNOWN), (full, NO_ROOM)] {
            let (mut lent, mut out) = (record, [0xa5; 31]);
            assert_eq!(finish(&mut lent, &mut out), Counted::refused(number));
            assert_eq!((lent, out), (record, [0xa5; 31]));
        }
        let mut lent = ended;
        assert_eq!(start(&mut lent, 11), UNKNOWN);
        assert_eq!(lent, ended);
        assert_eq!(start(&mut lent, 10), DONE);
        assert_eq!(lent, started(10));
    }

    #[test]
    fn a_finished_record_keeps_instance_and_total_alone() {
        let mut record = started(5);
        feed(&mut record, b"abc");
        assert_eq!(finish(&mut record, &mut [0; 32]).number, DONE);
        assert_eq!(
            record,
            Record {
                total: 3,
                instance: 5,
                finished: 1,
                ..Record::ZERO
            }
        );
        assert_eq!(feed(&mut record, &[]), AFTER_FINISH);
    }
}
