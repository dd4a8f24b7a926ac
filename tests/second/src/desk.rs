//! Order W14: the rework desk. From a stream, its index and a list of entry
//! numbers it writes a new stream of the frames asked for, in that order. The
//! index only says where to look: what stands there is read anew.

use crate::index::place_of;
use crate::numbers::{
    DONE, LINE_MOST, NOT_ITS_SIZE, NO_ENTRY, NO_LINE_THERE, NO_ROOM, STREAM_LIMIT, STRETCHES_MOST,
    TOO_LONG, TOO_MANY,
};
use crate::reader::{Asked, Editions, Walker, ALL};
use crate::stuffing::MARK;
use crate::told::Told;

/// The answer of the desk: the number, the new stream's length, and for 23 and
/// 24 the item of the list at fault, counted from 1.
#[derive(Clone, Copy, Debug, PartialEq, Eq)]
pub struct Copied {
    pub number: u8,
    pub length: usize,
    pub item: usize,
}

/// Order: 2, 3, 4 for the table, 19 for its count, then 23 or 24 for the first
/// item at fault, 3 for the new stream, 4 for the output; it is unwritten then.
pub fn copy(
    told: Told,
    editions: Editions,
    stream: &[u8],
    table: &[u32],
    count: usize,
    list: &[u32],
    out: &mut [u8],
) -> Copied {
    let refused = |number, item| Copied {
        number,
        length: 0,
        item,
    };
    if !told.sized() {
        return refused(NOT_ITS_SIZE, 0);
    }
    if stream.len() > STREAM_LIMIT {
        return refused(TOO_LONG, 0);
    }
    if table.len() < STRETCHES_MOST {
        return refused(NO_ROOM, 0);
    }
    if count > STRETCHES_MOST {
        return refused(TOO_MANY, 0);
    }
    // The lines that this stream holds, by one walk over all of it.
    let mut lines = Vec::new();
    let mut walker = Walker::new(stream);
    loop {
        let asked = Asked { editions, ..ALL };
        let reading = walker.next(told, asked, &mut [0; LINE_MOST]);
        if reading.end {
            break;
        }
        if reading.number == DONE {
            lines.push(reading.first..reading.closing);
        }
    }
    let mut anew = Vec::new();
    for (k, &item) in list.iter().enumerate() {
        if item as usize >= count {
            return refused(NO_ENTRY, k + 1);
        }
        let place = place_of(table[item as usize]);
        match lines.iter().find(|line| line.start == place) {
            None => return refused(NO_LINE_THERE, k + 1),
            Some(line) => {
                anew.push(MARK);
                anew.extend_from_slice(&stream[line.clone()]);
                anew.push(MARK);
            }
        }
    }
    if anew.len() > STREAM_LIMIT {
        return refused(TOO_LONG, 0);
    }
    if anew.len() > out.len() {
        return refused(NO_ROOM, 0);
    }
    out[..anew.len()].copy_from_slice(&anew);
    Copied {
        number: DONE,
        length: anew.len(),
        item: 0,
    }
}

#[cfg(test)]
mod tests {
    use super::*;
    use crate::index::{entry, update};
    use crate::reader::BOTH;
    use crate::sample::{frame_of, FONT, TOLD};

    fn table_of(stream: &[u8]) -> (Vec<u32>, usize) {
        let mut table = vec![0; STRETCHES_MOST];
        let count = update(TOLD, BOTH, stream, &mut table, 0).count;
        (table, count)
    }

    fn asked(stream: &[u8], list: &[u32]) -> (Copied, Vec<u8>) {
        let (table, count) = table_of(stream);
        let mut out = vec![0xee; STREAM_LIMIT + 1];
        let copied = copy(TOLD, BOTH, stream, &table, count, list, &mut out);
        (copied, out)
    }

    fn refused(number: u8, item: usize) -> Copied {
        Copied {
            number,
            length: 0,
            item,
        }
    }

    #[test]
    fn frames_in_the_asked_order_with_marks_of_their_own() {
        let (one, two) = (frame_of(1, b"12"), frame_of(2, b"345"));
        // The two share a mark.
        let stream = [&b"x~}~A"[..], &one, &two[1..], b"tail"].concat();
        let (copied, out) = asked(&stream, &[3, 2, 3]);
        let anew = [&two[..], &one, &two].concat();
        assert_eq!((copied.number, copied.item), (DONE, 0));
        assert_eq!(copied.length, anew.len());
        assert_eq!(out[..anew.len()], anew);
        assert!(out[anew.len()..].iter().all(|&byte| byte == 0xee));
        let (none, out) = asked(&stream, &[]);
        assert_eq!(none, refused(DONE, 0));
        assert!(out.iter().all(|&byte| byte == 0xee));
    }

    #[test]
    fn the_first_item_at_fault_decides() {
        let stream = [&frame_of(1, b"12")[..], b"A~", &frame_of(2, b"7")].concat();
        // 0 a line, 1 no line, 2 a line, 3 past the index.
        let cases: [(&[u32], u8, usize); 6] = [
            (&[1, 3], NO_LINE_THERE, 1),
            (&[3, 1], NO_ENTRY, 1),
            (&[0, 2, 3], NO_ENTRY, 3),
            (&[0, 1, u32::MAX], NO_LINE_THERE, 2),
            (&[2, 2, 1], NO_LINE_THERE, 3),
            (&[u32::MAX], NO_ENTRY, 1),
        ];
        for (list, number, item) in cases {
            let (copied, out) = asked(&stream, list);
            assert_eq!(copied, refused(number, item));
            assert!(out.iter().all(|&byte| byte == 0xee));
        }
    }

    #[test]
    fn the_stream_is_believed_and_not_the_table() {
        let one = frame_of(1, b"12");
        let stream = [&b"~A"[..], &one, b"~open"].concat();
        let line = 3;
        let last = stream.len();
        for place in 0..last + 3 {
            for number in [0, 5, 255] {
                let mut table = vec![0; STRETCHES_MOST];
                table[0] = entry(place, number);
                let mut out = vec![0; one.len()];
                let copied = copy(TOLD, BOTH, &stream, &table, 1, &[0], &mut out);
                if place == line {
                    assert_eq!((copied.number, copied.length), (DONE, one.len()));
                    assert_eq!(out, one);
                } else {
                    assert_eq!(copied, refused(NO_LINE_THERE, 1));
                }
            }
        }
    }

    #[test]
    fn the_refusals_in_their_order() {
        let good = frame_of(1, b"12");
        let long = vec![b'~'; STREAM_LIMIT + 1];
        let times = STREAM_LIMIT / good.len();
        let over = vec![0; times + 1];
        let fits = vec![0; times];
        let faulty = [&over[..], &[9]].concat();
        // Key, stream, table, count, list, output, answer.
        type Case<'a> = (usize, &'a [u8], usize, usize, &'a [u32], usize, u8, usize);
        let cases: [Case; 9] = [
            (15, &long, 511, 513, &faulty, 0, NOT_ITS_SIZE, 0),
            (16, &long, 511, 513, &faulty, 0, TOO_LONG, 0),
            (16, &good, 511, 513, &faulty, 0, NO_ROOM, 0),
            (16, &good, 512, 513, &faulty, 0, TOO_MANY, 0),
            (16, &good, 512, 1, &faulty, 0, NO_ENTRY, times + 2),
            (16, &good, 512, 512, &faulty, 0, NO_LINE_THERE, times + 2),
            (16, &good, 512, 1, &over, 0, TOO_LONG, 0),
            (16, &good, 512, 1, &fits, times * good.len() - 1, NO_ROOM, 0),
            (16, &good, 512, 1, &[0], good.len() - 1, NO_ROOM, 0),
        ];
        for (key, stream, room, count, list, output, number, item) in cases {
            let key = vec![9; key];
            let mut table = vec![0; room];
            table[0] = entry(1, 0);
            let mut out = vec![0xee; output];
            let told = Told::of(&key, &FONT);
            let copied = copy(told, BOTH, stream, &table, count, list, &mut out);
            assert_eq!(copied, refused(number, item));
            assert!(out.iter().all(|&byte| byte == 0xee));
        }
    }
}
