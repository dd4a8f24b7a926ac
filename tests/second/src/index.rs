//! Order W10: an index beside the stream. An entry is the place of a stretch's
//! first byte times 256, plus the stretch's number.

use crate::numbers::{
    BEYOND_END, DONE, LINE_MOST, NOT_ITS_SIZE, NO_ROOM, STREAM_LIMIT, STRETCHES_MOST, TOO_LONG,
    TOO_MANY,
};
use crate::reader::{read, Asked, Editions, ALL};
use crate::stream::next_stretch;
use crate::told::Told;

const NUMBERS: u32 = 256;

/// The one number that holds a place and a number.
pub fn entry(place: usize, number: u8) -> u32 {
    u32::try_from(place).expect("a place of a stream within its limit") * NUMBERS
        + u32::from(number)
}

pub fn place_of(entry: u32) -> usize {
    (entry / NUMBERS) as usize
}

pub fn number_of(entry: u32) -> u32 {
    entry % NUMBERS
}

/// The answer of bringing a table up to date: the number, and the count of its
/// entries then.
#[derive(Clone, Copy, Debug, PartialEq, Eq)]
pub struct Updated {
    pub number: u8,
    pub count: usize,
}

/// Brings a table of so many entries up to date with the stream: the stretches
/// that start after the last entry's place are added, all of them where there
/// is no entry. Order: 2, 3, 4, 19 for the count, 10, 19 for the entries there
/// would be; the table is unchanged then.
pub fn update(
    told: Told,
    editions: Editions,
    stream: &[u8],
    table: &mut [u32],
    count: usize,
) -> Updated {
    let refused = |number| Updated { number, count };
    if !told.sized() {
        return refused(NOT_ITS_SIZE);
    }
    if stream.len() > STREAM_LIMIT {
        return refused(TOO_LONG);
    }
    if table.len() < STRETCHES_MOST {
        return refused(NO_ROOM);
    }
    if count > STRETCHES_MOST {
        return refused(TOO_MANY);
    }
    let last = match count {
        0 => None,
        _ => Some(place_of(table[count - 1])),
    };
    if last.map_or(false, |place| place > stream.len()) {
        return refused(BEYOND_END);
    }
    // A stretch is found by its opening mark, which stands before its first
    // byte: those that start after a place are those that open there or later.
    let mut added = Vec::new();
    let mut from = last.unwrap_or(0);
    loop {
        let part = next_stretch(stream, from);
        if part.length == 0 {
            break;
        }
        added.push(from);
        from = part.first + part.length;
    }
    if count + added.len() > STRETCHES_MOST {
        return refused(TOO_MANY);
    }
    for (k, &from) in added.iter().enumerate() {
        let asked = Asked { editions, ..ALL };
        let reading = read(told, asked, stream, from, &mut [0; LINE_MOST]);
        table[count + k] = entry(reading.first, reading.number);
    }
    Updated {
        number: DONE,
        count: count + added.len(),
    }
}

/// How many entries a look-up sees: those below the count, 512 and the table's
/// length.
fn seen(table: &[u32], count: usize) -> &[u32] {
    &table[..count.min(STRETCHES_MOST).min(table.len())]
}

/// An entry looked up: whether there is one, its place and its number.
#[derive(Clone, Copy, Debug, PartialEq, Eq)]
pub struct Entry {
    pub found: u32,
    pub place: usize,
    pub number: u32,
}

/// The entry of that index, counted from 0; none: all 0.
pub fn at(table: &[u32], count: usize, index: usize) -> Entry {
    match seen(table, count).get(index) {
        None => Entry {
            found: 0,
            place: 0,
            number: 0,
        },
        Some(&entry) => Entry {
            found: 1,
            place: place_of(entry),
            number: number_of(entry),
        },
    }
}

/// A line looked up: whether there is one, its entry's index and its place.
#[derive(Clone, Copy, Debug, PartialEq, Eq)]
pub struct Line {
    pub found: u32,
    pub index: usize,
    pub place: usize,
}

/// The entry of the k-th line, counted from 1 among those with number 0; none:
/// all 0.
pub fn line(table: &[u32], count: usize, k: usize) -> Line {
    let lines = seen(table, count)
        .iter()
        .enumerate()
        .filter(|(_, &entry)| number_of(entry) == u32::from(DONE));
    match k
        .checked_sub(1)
        .and_then(|before| lines.skip(before).next())
    {
        None => Line {
            found: 0,
            index: 0,
            place: 0,
        },
        Some((index, &entry)) => Line {
            found: 1,
            index,
            place: place_of(entry),
        },
    }
}

#[cfg(test)]
mod tests {
    use super::*;
    use crate::numbers::{BAD_FIELDS, BAD_STUFFING};
    use crate::reader::BOTH;
    use crate::sample::{frame, FONT, TOLD};

    const BEFORE: u32 = 0xeeee_eeee;

    fn fresh(stream: &[u8]) -> (Updated, Vec<u32>) {
        let mut table = vec![BEFORE; STRETCHES_MOST];
        let updated = update(TOLD, BOTH, stream, &mut table, 0);
        (updated, table)
    }

    fn done(count: usize) -> Updated {
        Updated {
            number: DONE,
            count,
        }
    }

    #[test]
    fn a_fresh_table_holds_every_stretch() {
        let first = frame(b"12");
        let stream = [b"x~A~", &first[..], b"~}~", &frame(b"345"), b"tail"].concat();
        let (updated, table) = fresh(&stream);
        // Between A's closing mark and the first frame's own stands nothing.
        assert_eq!(updated, done(4));
        let behind = 4 + first.len();
        assert_eq!(
            table[..4],
            [
                entry(2, BAD_FIELDS),
                entry(5, DONE),
                entry(behind + 1, BAD_STUFFING),
                entry(behind + 4, DONE)
            ]
        );
        assert!(table[4..].iter().all(|&entry| entry == BEFORE));
    }

    #[test]
    fn a_stream_grown_byte_by_byte() {
        let stream = [b"~A~~", &frame(b"12")[1..], b"}~", &frame(b"7")].concat();
        let mut table = vec![BEFORE; STRETCHES_MOST + 3];
        let mut count = 0;
        for length in 0..=stream.len() {
            let before = table[..count].to_vec();
            let updated = update(TOLD, BOTH, &stream[..length], &mut table, count);
            assert_eq!(updated.number, DONE);
            assert_eq!(table[..count], before);
            count = updated.count;
            let (anew, other) = fresh(&stream[..length]);
            assert_eq!(anew, done(count));
            assert_eq!(table[..count], other[..count]);
            assert!(table[count..].iter().all(|&entry| entry == BEFORE));
        }
        assert_eq!(count, 4);
    }

    #[test]
    fn any_other_table_keeps_its_entries() {
        // The last place decides, not the greatest; marks at it open.
        let stream = b"~A~B~C~";
        for (last, added) in [(0, 3), (1, 2), (2, 2), (3, 1), (5, 0), (6, 0), (7, 0)] {
            let mut table = vec![BEFORE; STRETCHES_MOST];
            table[0] = entry(60_000, 77);
            table[1] = entry(last, 255);
            let before = table.clone();
            let updated = update(TOLD, BOTH, stream, &mut table, 2);
            assert_eq!(updated, done(2 + added));
            assert_eq!(table[..2], before[..2]);
            let places: Vec<usize> = table[2..2 + added].iter().map(|&e| place_of(e)).collect();
            assert_eq!(places, [1, 3, 5][3 - added..]);
        }
    }

    #[test]
    fn the_refusals_in_their_order() {
        let long = vec![b'~'; STREAM_LIMIT + 1];
        let many = |stretches: usize| [&b"~"[..], &b"A~".repeat(stretches)[..]].concat();
        let (some, most, over) = (many(1), many(512), many(513));
        // Key, stream, table, count, the last place, number.
        type Case<'a> = (usize, &'a [u8], usize, usize, usize, u8);
        let cases: [Case; 10] = [
            (15, &long, 511, 513, 9, NOT_ITS_SIZE),
            (16, &long, 511, 513, 9, TOO_LONG),
            (16, &over, 511, 513, 9, NO_ROOM),
            (16, &over, 513, 513, 65_535, TOO_MANY),
            (16, &some, 512, usize::MAX, 4, TOO_MANY),
            (16, &some, 512, 1, 4, BEYOND_END),
            (16, &some, 512, 512, 4, BEYOND_END),
            (16, &over, 600, 0, 0, TOO_MANY),
            (16, &some, 512, 512, 0, TOO_MANY),
            (16, &most, 512, 1, 0, TOO_MANY),
        ];
        for (key, stream, room, count, last, number) in cases {
            let key = vec![9; key];
            let mut table = vec![BEFORE; room];
            if count > 0 && count <= room {
                table[count - 1] = entry(last, 0);
            }
            let before = table.clone();
            let updated = update(Told::of(&key, &FONT), BOTH, stream, &mut table, count);
            assert_eq!(updated, Updated { number, count });
            assert_eq!(table, before);
        }
        assert_eq!(fresh(&most).0, done(512));
        // The last place is the stream's length: nothing is added.
        let mut table = vec![entry(3, 0); STRETCHES_MOST];
        assert_eq!(update(TOLD, BOTH, &some, &mut table, 512), done(512));
    }

    #[test]
    fn looking_up() {
        let table = [
            entry(1, 7),
            entry(4, 0),
            entry(9, 0),
            u32::MAX,
            entry(20, 0),
        ];
        let at_is = |count, index| {
            let entry = at(&table, count, index);
            (entry.found, entry.place, entry.number)
        };
        assert_eq!(at_is(5, 0), (1, 1, 7));
        assert_eq!(at_is(4, 3), (1, 0x00ff_ffff, 255));
        assert_eq!(at_is(4, 4), (0, 0, 0));
        assert_eq!(at_is(9, 4), (1, 20, 0));
        assert_eq!(at_is(9, 5), (0, 0, 0));
        let line_is = |count, k| {
            let line = line(&table, count, k);
            (line.found, line.index, line.place)
        };
        assert_eq!(line_is(5, 0), (0, 0, 0));
        assert_eq!(line_is(5, 1), (1, 1, 4));
        assert_eq!(line_is(5, 3), (1, 4, 20));
        assert_eq!(line_is(4, 3), (0, 0, 0));
        assert_eq!(line_is(usize::MAX, 4), (0, 0, 0));
        let full = vec![entry(1, 0); 600];
        assert_eq!(at(&full, 600, 511).found, 1);
        assert_eq!(at(&full, 600, 512).found, 0);
        assert_eq!(line(&full, 600, 512).found, 1);
        assert_eq!(line(&full, 600, 513).found, 0);
    }
}
