//! `rows_index`: an index beside the stream (order W10), one call and one row
//! for each case of the case file, on the table and the count that the call
//! before it left: streams that grow, each refusal alone and with each other
//! that can hold at once, tables and counts at their limits, and look-ups.

use std::fmt::Write;

use super::accept::{fields, frames, numbered, one, refused, two, OF_A};
use super::gathered;
use super::stream::stored;
use super::told::{Telling, RIGHT};
use crate::frame::framed;
use crate::index::{at, entry, line, number_of, place_of, update};
use crate::line::{Layout, LAYOUT_A, LAYOUT_B};
use crate::numbers::{DIGEST, KEY, STREAM_LIMIT, STRETCHES_MOST};
use crate::reader::{Editions, ONE, TWO};

/// What a table that is set holds: any number is an entry.
const BEFORE: u32 = 0xeeee_eeee;

/// The largest number of a case.
const LARGEST: usize = 0xffff_ffff;

#[derive(Clone, Copy)]
enum Call {
    Update,
    /// The index.
    Entry,
    /// Which line.
    Line,
    /// The table's length, the count, each entry, and the last below the count.
    Set,
}

/// The row's name, the call and its numbers, 0 where it has fewer; of an update
/// the stream, and what it is told.
struct Case {
    name: String,
    call: Call,
    numbers: [usize; 4],
    stream: Vec<u8>,
    told: Telling,
}

impl Case {
    fn of(name: String, call: Call, numbers: [usize; 4]) -> Case {
        Case {
            name,
            call,
            numbers,
            stream: Vec::new(),
            told: RIGHT,
        }
    }

    /// The numbers are what it is told, the call and its numbers.
    fn stored(&self) -> Vec<u8> {
        let mut numbers = self.told.numbers(&[self.call as usize]);
        numbers.extend(self.numbers);
        stored(&self.name, &self.stream, &numbers)
    }

    fn row(&self, index: &mut Index) -> String {
        let [first, count, each, last] = self.numbers;
        match self.call {
            Call::Update => index.update(self),
            Call::Entry => {
                let entry = at(&index.table, index.count, first);
                format!("{} {} {}", entry.found, entry.place, entry.number)
            }
            Call::Line => {
                let line = line(&index.table, index.count, first);
                format!("{} {} {}", line.found, line.index, line.place)
            }
            Call::Set => {
                *index = Index::set(first, count, each as u32, last as u32);
                format!("{} {}", first, count)
            }
        }
    }
}

/// The table and the count.
struct Index {
    table: Vec<u32>,
    count: usize,
}

impl Index {
    fn set(entries: usize, count: usize, each: u32, last: u32) -> Index {
        let mut table = vec![each; entries];
        if count > 0 && count <= entries {
            table[count - 1] = last;
        }
        Index { table, count }
    }

    /// Number and count, then index, place and number of each entry that is
    /// another now.
    fn update(&mut self, case: &Case) -> String {
        let before = self.table.clone();
        let updated = case.told.with(|told, editions| {
            let table = &mut self.table;
            update(told, editions, &case.stream, table, self.count)
        });
        self.count = updated.count;
        let mut row = format!("{} {}", updated.number, updated.count);
        for (i, (&entry, _)) in self
            .table
            .iter()
            .zip(&before)
            .enumerate()
            .filter(|(_, (entry, before))| entry != before)
        {
            write!(row, " {} {} {}", i, place_of(entry), number_of(entry)).unwrap();
        }
        row
    }
}

/// Calls on one table, all under one name.
struct Run {
    name: String,
    cases: Vec<Case>,
}

impl Run {
    /// From a table with so many entries and a count of 0.
    fn fresh(name: &str, entries: usize) -> Run {
        Run::set(name, entries, 0, 0)
    }

    fn set(name: &str, entries: usize, count: usize, last: u32) -> Run {
        Run::filled(name, entries, count, BEFORE, last)
    }

    fn filled(name: &str, entries: usize, count: usize, each: u32, last: u32) -> Run {
        let run = Run {
            name: name.to_string(),
            cases: Vec::new(),
        };
        let numbers = [entries, count, each as usize, last as usize];
        run.call("set", Call::Set, numbers)
    }

    fn call(mut self, what: &str, call: Call, numbers: [usize; 4]) -> Run {
        let name = format!("{} {}", self.name, what);
        self.cases.push(Case::of(name, call, numbers));
        self
    }

    fn update(self, what: &str, stream: &[u8]) -> Run {
        self.asking(what, stream, RIGHT)
    }

    fn asking(self, what: &str, stream: &[u8], told: Telling) -> Run {
        let mut run = self.call(what, Call::Update, [0; 4]);
        let case = run.cases.last_mut().expect("the case just made");
        case.stream = stream.to_vec();
        case.told = told;
        run
    }

    /// Both look-ups of each number.
    fn looks(mut self, numbers: &[usize]) -> Run {
        for &i in numbers {
            self = self
                .call(&format!("entry-{}", i), Call::Entry, [i, 0, 0, 0])
                .call(&format!("line-{}", i), Call::Line, [i, 0, 0, 0]);
        }
        self
    }
}

/// So many stretches of one byte, with shared marks.
fn shorts(count: usize) -> Vec<u8> {
    [b"~A".repeat(count), b"~".to_vec()].concat()
}

/// Frames of both editions and every refusal, with loose bytes and shared marks.
fn mixed() -> Vec<u8> {
    let mut stream = [&b"}A"[..], &frames(0, 2), &one(2)[1..], b"A}"].concat();
    for (_, bad) in refused(3) {
        stream.extend(bad);
        stream.extend(two(4));
    }
    stream.extend(framed(&fields(&numbered(5), None, OF_A).body()));
    stream.extend(b"~A");
    stream
}

/// The lengths that end before, behind and one byte behind each mark.
fn around_marks(stream: &[u8]) -> Vec<usize> {
    let near = |length: &usize| {
        let (from, to) = (length.saturating_sub(2), stream.len().min(length + 1));
        stream[from..to].contains(&0x7e)
    };
    let mut lengths: Vec<usize> = (0..stream.len()).filter(near).collect();
    lengths.push(stream.len());
    lengths
}

/// A stream that grows, cut around every mark and between frames, brought up to
/// date again, built anew, and cut off.
fn grown() -> Vec<Run> {
    let stream = mixed();
    let mut by_marks = Run::fresh("grown", STRETCHES_MOST);
    for length in around_marks(&stream) {
        by_marks = by_marks.update(&format!("to-{}", length), &stream[..length]);
    }
    let all: Vec<usize> = (0..32).collect();
    let by_marks = by_marks.update("again", &stream).looks(&all);
    let mut runs = vec![by_marks];
    for (name, told) in [
        ("both", RIGHT),
        ("one", RIGHT.editions(ONE)),
        ("two", RIGHT.editions(TWO)),
        ("none", RIGHT.editions(Editions(4))),
        ("other-bits", RIGHT.editions(Editions(0xffff_fffb))),
        ("A", RIGHT.layout(LAYOUT_A)),
        ("B", RIGHT.layout(LAYOUT_B)),
        ("3", RIGHT.layout(Layout(3))),
    ] {
        let half = stream.len() / 2;
        let run = Run::fresh(&format!("asking {}", name), STRETCHES_MOST)
            .asking("half", &stream[..half], told)
            .asking("whole", &stream, told)
            .asking("again", &stream, told)
            .looks(&[0, 1, 2, 3, 20, 30]);
        runs.push(run);
    }
    let mut frame_by_frame = Run::fresh("frames", STRETCHES_MOST + 88);
    for count in 0..9 {
        let what = format!("{}", count);
        frame_by_frame = frame_by_frame
            .update(&what, &frames(0, count))
            .looks(&[count]);
    }
    // From here on the stream is another, and then cut off: what stands in the
    // table stays.
    let font = refused(8).into_iter().find(|(what, _)| *what == "8");
    let other = [frames(0, 8), font.expect("a frame of another font").1].concat();
    let mut other = frame_by_frame.update("other-font", &other);
    for cut in [0, 1, 2, 60, 200] {
        let whole = frames(0, 9);
        other = other.update(&format!("cut-{}", cut), &whole[..whole.len() - cut]);
    }
    runs.push(other.update("empty", b""));
    runs
}

/// What a call asks, and the refusals that hold of it.
struct Asking {
    told: Telling,
    stream: Vec<u8>,
    entries: usize,
    count: usize,
    beyond: bool,
}

/// The refusals in their order; the number of each stands before the dash.
const REFUSALS: [&str; 7] = ["2-key", "2-font", "3", "4", "19-count", "10", "19-full"];

fn asking(refusals: &[&str]) -> Asking {
    let holds = |name: &str| refusals.contains(&name);
    let stretches = if holds("19-full") { STRETCHES_MOST } else { 2 };
    let mut stream = shorts(stretches);
    if holds("3") {
        stream.resize(STREAM_LIMIT + 1, b'A');
    }
    let small = if holds("4") {
        STRETCHES_MOST - 1
    } else {
        STRETCHES_MOST
    };
    let count = if holds("19-count") {
        STRETCHES_MOST + 1
    } else {
        1
    };
    Asking {
        told: RIGHT
            .key(KEY - usize::from(holds("2-key")))
            .digest(DIGEST + usize::from(holds("2-font"))),
        stream,
        // Where it has room, the table has a last place for the count.
        entries: if holds("4") { small } else { count.max(small) },
        count,
        beyond: holds("10"),
    }
}

fn refusing(name: &str, refusals: &[&str]) -> Run {
    let asked = asking(refusals);
    let place = if asked.beyond {
        asked.stream.len() + 1
    } else {
        0
    };
    let name = format!("refused {}", name);
    let set = Run::set(&name, asked.entries, asked.count, entry(place, 0));
    set.asking("update", &asked.stream, asked.told)
}

/// None, each, all, and each two that can hold at once: beyond the end of the
/// stream nothing is added, so 10 does not meet a table that gets full.
fn refusals() -> Vec<Run> {
    let mut runs = vec![refusing("none", &[]), refusing("all", &REFUSALS)];
    for (i, &first) in REFUSALS.iter().enumerate() {
        runs.push(refusing(first, &[first]));
        for &second in &REFUSALS[i + 1..] {
            if (first, second) != ("10", "19-full") {
                let name = format!("{}-and-{}", first, second);
                runs.push(refusing(&name, &[first, second]));
            }
        }
    }
    runs
}

/// Tables, counts, stretches, places and streams at their limits.
fn limits() -> Vec<Run> {
    let mut runs = Vec::new();
    for entries in [0, 1, STRETCHES_MOST - 1, STRETCHES_MOST, STRETCHES_MOST + 1] {
        let name = format!("entries {}", entries);
        runs.push(Run::fresh(&name, entries).update("update", &shorts(3)));
    }
    for stretches in [511, 512, 513] {
        for entries in [STRETCHES_MOST, STRETCHES_MOST + 88] {
            let name = format!("stretches {} {}", stretches, entries);
            let run = Run::fresh(&name, entries).update("update", &shorts(stretches));
            runs.push(
                run.update("again", &shorts(stretches))
                    .update("more", &shorts(514)),
            );
        }
    }
    for count in [511, 512, 513, 600, 601, LARGEST] {
        for added in 0..3 {
            let name = format!("count {} {}", count, added);
            let set = Run::set(&name, 600, count, entry(0, 255));
            let stream = if added == 0 {
                b"~".to_vec()
            } else {
                shorts(added)
            };
            runs.push(set.update("update", &stream));
        }
    }
    // The last place decides, and not the greatest; a mark that stands there opens.
    for last in 0..9 {
        let name = format!("last {}", last);
        let set = Run::filled(
            &name,
            STRETCHES_MOST,
            2,
            entry(60_000, 77),
            entry(last, 255),
        );
        runs.push(set.update("update", b"~A~B~C~"));
    }
    let long = [&vec![b'A'; STREAM_LIMIT - 3], &b"~A~"[..]].concat();
    let run = Run::fresh("stream", STRETCHES_MOST);
    runs.push(run.update("65536", &long).update("again", &long));
    for last in [STREAM_LIMIT, STREAM_LIMIT + 1, 0xff_ffff] {
        let name = format!("stream last-{}", last);
        let set = Run::set(&name, STRETCHES_MOST, 1, entry(last, 0));
        runs.push(set.update("update", &long));
    }
    runs
}

/// Look-ups in tables of lines alone, of none but the last, and of any numbers.
fn looked_up() -> Vec<Run> {
    let ends = [
        0, 1, 2, 4, 5, 6, 9, 10, 510, 511, 512, 513, 599, 600, 601, LARGEST,
    ];
    let mut runs = Vec::new();
    for (what, each, last) in [
        ("lines", entry(1, 0), entry(2, 0)),
        ("last", entry(1, 7), entry(2, 0)),
        ("any", BEFORE, u32::MAX),
    ] {
        for (entries, count) in [
            (0, 0),
            (0, STRETCHES_MOST),
            (5, 9),
            (9, 5),
            (STRETCHES_MOST, STRETCHES_MOST),
            (600, 600),
            (600, LARGEST),
        ] {
            let name = format!("looked {} {} {}", what, entries, count);
            runs.push(Run::filled(&name, entries, count, each, last).looks(&ends));
        }
    }
    runs
}

/// The case file, and what must be printed for it.
pub fn stdin_and_rows() -> (Vec<u8>, String) {
    let mut index = Index::set(0, 0, 0, 0);
    let runs = grown().into_iter().chain(refusals());
    let runs = runs.chain(limits()).chain(looked_up());
    gathered(runs.flat_map(|run| run.cases), |case| {
        let row = format!("{} {}", case.name, case.row(&mut index));
        (case.stored(), row)
    })
}

#[cfg(test)]
mod tests {
    use super::*;

    /// The cells of the rows whose name begins so and ends with the word.
    fn cells<'a>(rows: &'a str, name: &str, word: &str) -> Vec<(&'a str, Vec<&'a str>)> {
        let word = format!(" {} ", word);
        rows.lines()
            .filter(|row| row.starts_with(name))
            .filter_map(|row| row.split_once(&word[..]))
            .map(|(name, cells)| (name, cells.split(' ').collect()))
            .collect()
    }

    #[test]
    fn of_two_refusals_the_first_is_told() {
        let (stdin, rows) = stdin_and_rows();
        assert!(stdin.len() < 400_000, "{}", stdin.len());
        let told = cells(&rows, "refused", "update");
        assert_eq!(told.len(), 2 + 7 + 20);
        for (name, cells) in told {
            let number = match name.trim_start_matches("refused ") {
                "none" => "0",
                "all" => "2",
                first => first.split('-').next().expect("a number"),
            };
            assert_eq!(cells[0], number, "{}", name);
            assert!(number == "0" || cells.len() == 2, "{}", name);
        }
    }

    #[test]
    fn grown_as_built_anew() {
        let (_, rows) = stdin_and_rows();
        let last = |name: &str, word: &str| {
            let all = cells(&rows, name, word);
            all.last().expect("a row").1.clone()
        };
        assert_eq!(
            last("grown", "again")[..2],
            last("asking both", "again")[..2]
        );
        assert_eq!(last("grown", "again").len(), 2);
        for number in ["0", "2", "3", "4", "10", "19"] {
            let met = |row: &&str| row.contains(&format!(" update {} ", number)[..]);
            assert!(rows.lines().filter(met).count() >= 3, "{}", number);
        }
    }
}
