//! `rows_stream`: every case of the case file read from its place to the end
//! of the stream, or to a refusal of the call, one row a reading.

use std::fmt::Write;
use std::ops::Range;

use super::{beat, damage, edition, in_bytes, layout, limit, sound, stretch, told};
use crate::line::{Layout, NEITHER};
use crate::numbers::{DIGEST, KEY, LINE_MOST};
use crate::reader::{Asked, Editions, ONE};
use crate::stream::next_stretch;

/// A stream, the place to start from, the lengths of line buffer, key and font
/// digest, the work allowed, the editions and the layout. A case has a name of
/// its own, or its number.
pub struct Case {
    name: Option<&'static str>,
    stream: Vec<u8>,
    place: usize,
    room: usize,
    key: usize,
    digest: usize,
    allowed: usize,
    editions: Editions,
    layout: Layout,
}

/// Enough for every stretch, in the four bytes that a number of a case has.
const ALL_WORK: usize = 0xffff_ffff;

impl Case {
    /// From the stream's start, all lengths as they should be, all work
    /// allowed, edition one and neither layout.
    pub fn of(stream: &[u8]) -> Case {
        Case {
            name: None,
            stream: stream.to_vec(),
            place: 0,
            room: LINE_MOST,
            key: KEY,
            digest: DIGEST,
            allowed: ALL_WORK,
            editions: ONE,
            layout: NEITHER,
        }
    }

    pub fn named(self, name: &'static str) -> Case {
        Case {
            name: Some(name),
            ..self
        }
    }

    pub fn place(self, place: usize) -> Case {
        Case { place, ..self }
    }

    pub fn room(self, room: usize) -> Case {
        Case { room, ..self }
    }

    pub fn key(self, key: usize) -> Case {
        Case { key, ..self }
    }

    pub fn digest(self, digest: usize) -> Case {
        Case { digest, ..self }
    }

    pub fn allowed(self, allowed: usize) -> Case {
        Case { allowed, ..self }
    }

    pub fn editions(self, editions: Editions) -> Case {
        Case { editions, ..self }
    }

    pub fn layout(self, layout: Layout) -> Case {
        Case { layout, ..self }
    }

    /// The numbers are the place, the lengths of line buffer, key and font
    /// digest, the work allowed, the editions and the layout.
    fn stored(&self, name: &str) -> Vec<u8> {
        let numbers = [
            self.place,
            self.room,
            self.key,
            self.digest,
            self.allowed,
            self.editions.0 as usize,
            self.layout.0,
        ];
        stored(name, &self.stream, &numbers)
    }

    fn read_to_end(&self, rows: &mut String, name: &str) {
        let mut start = self.place;
        loop {
            let asked = Asked {
                editions: self.editions,
                allowed: self.allowed,
            };
            let (reading, line) = told::reading(
                self.key,
                self.digest,
                self.layout,
                asked,
                &self.stream,
                start,
                self.room,
            );
            let part = next_stretch(&self.stream, start);
            writeln!(
                rows,
                "{} {} {} {} {} {} {} {} {} {} {} {}",
                name,
                start,
                part.first,
                part.length,
                reading.first,
                reading.closing,
                told::number(&reading),
                reading.length,
                reading.count,
                reading.edition,
                reading.job,
                line
            )
            .unwrap();
            if reading.end || reading.is_call_refused() {
                return;
            }
            start = reading.closing;
        }
    }
}

/// A case as its file holds it: the lengths of the name, of the bytes, of the
/// first and of the last of them, the byte between those, and further numbers;
/// then the name and the first and the last bytes.
pub fn stored(name: &str, bytes: &[u8], numbers: &[usize]) -> Vec<u8> {
    let run = longest_run(bytes);
    let (first, last) = (&bytes[..run.start], &bytes[run.end..]);
    let between = bytes.get(run.start).copied().unwrap_or(0);
    let mut head = vec![
        name.len(),
        bytes.len(),
        first.len(),
        last.len(),
        usize::from(between),
    ];
    head.extend(numbers);
    let head: Vec<[u8; 4]> = head.into_iter().map(in_bytes).collect();
    [&head.concat(), name.as_bytes(), first, last].concat()
}

/// Where the longest run of one byte value stands: all that long streams have
/// between their first and last bytes.
fn longest_run(bytes: &[u8]) -> Range<usize> {
    let mut longest = 0..0;
    let mut start = 0;
    for (at, byte) in bytes.iter().enumerate() {
        if *byte != bytes[start] {
            start = at;
        }
        if at + 1 - start > longest.len() {
            longest = start..at + 1;
        }
    }
    longest
}

/// Document 01's own cases first, then the damaged streams, small streams from
/// every place, and the limits.
fn cases() -> Vec<Case> {
    let mut cases = sound::cases();
    cases.extend(damage::cases());
    cases.extend(stretch::cases());
    cases.extend(limit::cases());
    cases.extend(beat::cases());
    cases.extend(edition::streams());
    cases.extend(layout::streams());
    cases
}

/// The case file, and what must be printed for it.
pub fn stdin_and_rows() -> (Vec<u8>, String) {
    let mut stdin = Vec::new();
    let mut rows = String::new();
    for (index, case) in cases().iter().enumerate() {
        let name = case.name.map_or(index.to_string(), str::to_string);
        stdin.extend(case.stored(&name));
        case.read_to_end(&mut rows, &name);
    }
    (stdin, rows)
}

#[cfg(test)]
mod tests {
    use super::*;

    #[test]
    fn the_case_file_is_small_and_every_answer_of_a_reading_occurs_often() {
        let (stdin, rows) = stdin_and_rows();
        assert!(stdin.len() < 270_000);
        let numbers: Vec<&str> = rows
            .lines()
            .map(|row| row.split(' ').nth(6).unwrap())
            .collect();
        for number in [
            "0", "2", "3", "4", "5", "6", "7", "8", "9", "10", "13", "15", "17", "end",
        ] {
            let times = numbers.iter().filter(|&&one| one == number).count();
            assert!(times >= 4, "{} occurs {} times", number, times);
        }
    }
}
