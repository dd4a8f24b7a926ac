//! `rows_accept`: one call and one row for each case of the case file: streams
//! accepted or not (order W12), with 512 and 513 stretches, pairs of one nonce
//! at every distance, across editions and under every refusal, and each pair of
//! refusals that can hold at once; then nonces of stretches.

use super::stream::stored;
use super::told::{Telling, RIGHT};
use super::{by_rule, gathered, told};
use crate::accept::{accept, nonce};
use crate::frame::{framed, framed_escaping, Fields, Own};
use crate::line::{Layout, LAYOUT_A, LAYOUT_B};
use crate::numbers::{DIGEST, KEY, NONCE, STREAM_LIMIT, STRETCHES_MOST, STRETCH_MOST};
use crate::reader::{Editions, ONE, TWO};
use crate::text::value;

pub const JOB: [u8; 4] = [0x00, 0x7e, 0x7d, 0x05];

/// A line of layout A, and lines that are refused for what they are.
pub const OF_A: &[u8] = b"A123456789A0123456789C";
const UNLISTED: &[u8] = b"12x";
const BLANK: &[u8] = b" ";

/// A stream to accept, or a stretch whose nonce is asked for.
#[derive(Clone, Copy, PartialEq, Eq)]
enum Call {
    Accept,
    Nonce,
}

/// The row's name, the call, its bytes, and what it is told.
struct Case {
    name: String,
    call: Call,
    bytes: Vec<u8>,
    told: Telling,
}

impl Case {
    fn accept(name: &str, bytes: &[u8]) -> Case {
        Case {
            name: name.to_string(),
            call: Call::Accept,
            bytes: bytes.to_vec(),
            told: RIGHT,
        }
    }

    fn nonce(name: &str, bytes: &[u8]) -> Case {
        Case {
            call: Call::Nonce,
            ..Case::accept(&format!("nonce {}", name), bytes)
        }
    }

    fn told(self, told: Telling) -> Case {
        Case { told, ..self }
    }

    /// The numbers are what it is told, and the call.
    fn stored(&self) -> Vec<u8> {
        let call = usize::from(self.call == Call::Nonce);
        stored(&self.name, &self.bytes, &self.told.numbers(&[call]))
    }

    fn row(&self) -> String {
        match self.call {
            Call::Accept => {
                let answer = self
                    .told
                    .with(|told, editions| accept(told, editions, &self.bytes));
                let (first, closing) = (answer.first, answer.closing);
                format!("{} {} {} {}", self.name, answer.number, first, closing)
            }
            Call::Nonce => {
                let found = nonce(&self.bytes);
                let bytes = found.unwrap_or([0; NONCE]);
                let found = usize::from(found.is_some());
                format!("{} {} {}", self.name, found, value(&bytes))
            }
        }
    }
}

/// A nonce by its number, with a mark and an escape among its bytes.
pub fn numbered(number: usize) -> Vec<u8> {
    by_rule(NONCE, |i| match i {
        0 => number / 256,
        11 => number,
        _ => 0x78 + i,
    })
}

pub fn fields(nonce: &[u8], job: Option<&[u8]>, line: &[u8]) -> Fields {
    Fields::sealing_own(&told::key(), Own { nonce, job }, &told::digest(), line).0
}

pub fn one(number: usize) -> Vec<u8> {
    framed(&fields(&numbered(number), None, b"7").body())
}

pub fn two(number: usize) -> Vec<u8> {
    framed(&fields(&numbered(number), Some(&JOB), b"7").body())
}

/// Frames of both editions by turns, from one number up to another.
pub fn frames(from: usize, to: usize) -> Vec<u8> {
    (from..to)
        .flat_map(|number| {
            if number % 2 == 0 {
                one(number)
            } else {
                two(number)
            }
        })
        .collect()
}

/// Stretches that are refused, with the nonce of the number where they have
/// one: by what the reader says of them.
pub fn refused(number: usize) -> Vec<(&'static str, Vec<u8>)> {
    let nonce = numbered(number);
    let good = fields(&nonce, None, b"7");
    let mut seal = good.clone();
    seal.seal[15] ^= 1;
    let mut font = good.clone();
    font.digest[0] ^= 1;
    let mut both = font.clone();
    both.seal[0] ^= 1;
    let mut body = good.body();
    body.push(0);
    vec![
        ("5", framed(&seal.body())),
        ("6", framed_escaping(&good.body(), 20)),
        ("6-mark", b"~}~".to_vec()),
        ("7", framed(&body)),
        ("7-short", b"~A~".to_vec()),
        (
            "7-long",
            [&b"~"[..], &[0x41; STRETCH_MOST + 1], b"~"].concat(),
        ),
        ("8", framed(&font.body())),
        ("8-and-5", framed(&both.body())),
        ("9", framed(&fields(&nonce, None, UNLISTED).body())),
        ("13", framed(&fields(&nonce, None, BLANK).body())),
    ]
}

fn good_streams() -> Vec<Case> {
    let mut cases: Vec<Case> = [
        ("empty", &b""[..]),
        ("mark", b"~"),
        ("marks", b"~~~"),
        ("before", b"A~"),
        ("behind", b"~A"),
        ("outside", b"}~~}"),
    ]
    .iter()
    .map(|(name, stream)| Case::accept(name, stream))
    .collect();
    let few = frames(0, 5);
    let shared = [&frames(0, 2)[..], &one(2)[1..], &two(3)[1..]].concat();
    cases.extend([
        Case::accept("few", &few),
        Case::accept("few-loose", &[&b"}A"[..], &few, b"A}"].concat()),
        Case::accept("shared-marks", &shared),
        Case::accept("one-alone", &[one(0), one(1)].concat()).told(RIGHT.editions(ONE)),
        Case::accept("two-alone", &[two(0), two(1)].concat()).told(RIGHT.editions(TWO)),
        Case::accept("other-bits", &few).told(RIGHT.editions(Editions(0xffff_fffb))),
    ]);
    // Nonces that differ in one byte only, each in its turn.
    let mut stream = one(0);
    for place in 0..NONCE {
        let mut nonce = numbered(0);
        nonce[place] ^= 0x40;
        stream.extend(framed(&fields(&nonce, None, b"7").body()));
    }
    cases.push(Case::accept("one-byte-apart", &stream));
    cases
}

/// A pair of one nonce, near and far, in either edition.
fn pairs() -> Vec<Case> {
    let mut cases = Vec::new();
    for before in [0, 1, 2, 7] {
        for between in [0, 1, 5] {
            for (kind, second) in [("one", one(before)), ("two", two(before))] {
                let head = frames(0, before + 1 + between);
                let tail = [frames(40, 42), one(0)].concat();
                let stream = [&head[..], &second, &tail].concat();
                let name = format!("pair {} {} {}", before, between, kind);
                cases.push(Case::accept(&name, &stream));
            }
        }
    }
    let thrice = [one(3), one(3), one(3)].concat();
    cases.push(Case::accept("pair thrice", &thrice));
    let two_pairs = [one(1), one(2), two(2), two(1)].concat();
    cases.push(Case::accept("pair nested", &two_pairs));
    let crossed = [one(1), one(2), two(1), two(2)].concat();
    cases.push(Case::accept("pair crossed", &crossed));
    cases
}

/// Refused stretches first, between and last, and with a nonce that was seen.
fn faults() -> Vec<Case> {
    let mut cases = Vec::new();
    for (what, bad) in refused(0) {
        let named = |place: &str, stream: &[&[u8]]| {
            Case::accept(&format!("fault {} {}", what, place), &stream.concat())
        };
        cases.extend([
            named("alone", &[&bad]),
            named("first", &[&bad, &one(0), &one(0)]),
            named("22-on-it", &[&one(0), &bad, &two(0)]),
            named("22-behind", &[&one(1), &bad, &two(1)]),
            named("22-before", &[&one(1), &two(1), &bad]),
            named("last", &[&frames(1, 4), &bad]),
        ]);
        // Of two refused stretches the first is named.
        for (other, worse) in refused(1) {
            let stream = [&one(2), &bad[..], &worse].concat();
            let name = format!("fault {} then {}", what, other);
            cases.push(Case::accept(&name, &stream));
        }
    }
    let of_a = |number| framed(&fields(&numbered(number), None, OF_A).body());
    let stream = [of_a(0), of_a(1), one(1)].concat();
    let again = [of_a(0), of_a(0), one(0)].concat();
    for (name, layout) in [("A", LAYOUT_A), ("B", LAYOUT_B), ("3", Layout(3))] {
        let named = |what: &str| format!("layout {} {}", name, what);
        cases.push(Case::accept(&named("last"), &stream).told(RIGHT.layout(layout)));
        cases.push(Case::accept(&named("22"), &again).told(RIGHT.layout(layout)));
    }
    // The second of a pair is of an edition that is not allowed: 7.
    let crossed = [one(0), two(0), one(0)].concat();
    for (name, editions) in [("one", ONE), ("two", TWO), ("none", Editions(4))] {
        let name = format!("editions {}", name);
        cases.push(Case::accept(&name, &crossed).told(RIGHT.editions(editions)));
    }
    cases
}

/// 512 stretches and 513, and the refusals of the call, alone and together.
fn limits() -> Vec<Case> {
    let most = frames(0, STRETCHES_MOST);
    let last = one(STRETCHES_MOST - 1);
    let before_last = &most[..most.len() - two(STRETCHES_MOST - 1).len()];
    let shorts = |count: usize| [b"~A".repeat(count), b"~".to_vec()].concat();
    let over = shorts(STRETCHES_MOST + 1);
    let long = vec![0x41; STREAM_LIMIT + 1];
    let long_over = [shorts(STRETCHES_MOST + 1), vec![0x7e; STREAM_LIMIT]].concat();
    let at_limit = |stream: &[u8]| [stream, &vec![0x7e; STREAM_LIMIT - stream.len()]].concat();
    vec![
        Case::accept("limit 512", &most),
        Case::accept("limit 512-last-again", &[before_last, &one(0)].concat()),
        Case::accept("limit 512-last", &[before_last, &last].concat()),
        Case::accept("limit 513", &[&most[..], &one(600)].concat()),
        Case::accept("limit 512-short", &shorts(STRETCHES_MOST)),
        Case::accept("limit 511-short", &shorts(STRETCHES_MOST - 1)),
        Case::accept("limit 19-and-7", &over),
        Case::accept("limit 19-and-22", &[one(0), one(0), over.clone()].concat()),
        Case::accept("limit 65536", &at_limit(&frames(0, 3))),
        Case::accept("limit 65536-22", &at_limit(&[one(0), one(0)].concat())),
        Case::accept("limit 65536-19", &at_limit(&over)),
        Case::accept("limit 3", &long),
        Case::accept("limit 3-and-19", &long_over),
        Case::accept("limit 3-and-22", &[one(0), one(0), long.clone()].concat()),
        Case::accept("limit 2-key", b"").told(RIGHT.key(KEY - 1)),
        Case::accept("limit 2-key-more", b"").told(RIGHT.key(KEY + 1)),
        Case::accept("limit 2-font", b"").told(RIGHT.digest(DIGEST - 1)),
        Case::accept("limit 2-font-more", b"").told(RIGHT.digest(DIGEST + 1)),
        Case::accept("limit 2-and-3", &long).told(RIGHT.key(0)),
        Case::accept("limit 2-and-19", &over).told(RIGHT.digest(0)),
        Case::accept("limit 2-and-7", b"~A~").told(RIGHT.key(KEY - 1)),
        Case::accept("limit 2-and-22", &[one(0), one(0)].concat()).told(RIGHT.key(KEY - 1)),
        Case::accept("limit 2-3-and-19", &long_over).told(RIGHT.digest(DIGEST + 1)),
    ]
}

fn nonces() -> Vec<Case> {
    let inside = |frame: &[u8]| frame[1..frame.len() - 1].to_vec();
    let mut cases = vec![
        Case::nonce("empty", b""),
        Case::nonce("one", &inside(&one(5))),
        Case::nonce("two", &inside(&two(5))),
        Case::nonce("with-marks", &one(5)),
        Case::nonce("mark-behind", &one(5)[1..]),
        Case::nonce("288", &[0x41; STRETCH_MOST]),
        Case::nonce("289", &[0x41; STRETCH_MOST + 1]),
    ];
    for nonce in [[0; NONCE], [0x7e; NONCE], [0x7d; NONCE], [0xff; NONCE]] {
        let name = format!("of {:02X}", nonce[0]);
        let of = |job| inside(&framed(&fields(&nonce, job, &[b'7'; 65]).body()));
        cases.push(Case::nonce(&name, &of(None)));
        cases.push(Case::nonce(&format!("{} two", name), &of(Some(&JOB))));
    }
    for (what, bad) in refused(7) {
        cases.push(Case::nonce(&format!("in {}", what), &inside(&bad)));
    }
    for frame in [one(6), two(6)] {
        let stretch = inside(&frame);
        for place in 0..stretch.len() {
            let named = |what: &str| format!("{} {} {}", what, stretch.len(), place);
            let mut damaged = stretch.clone();
            damaged[place] ^= 0x10;
            cases.push(Case::nonce(&named("cut"), &stretch[..place]));
            cases.push(Case::nonce(&named("damaged"), &damaged));
        }
    }
    cases
}

/// The case file, and what must be printed for it.
pub fn stdin_and_rows() -> (Vec<u8>, String) {
    let cases = good_streams().into_iter().chain(pairs()).chain(faults());
    gathered(cases.chain(limits()).chain(nonces()), |case| {
        (case.stored(), case.row())
    })
}

#[cfg(test)]
mod tests {
    use super::*;

    #[test]
    fn every_answer_of_accepting_occurs() {
        let (stdin, rows) = stdin_and_rows();
        assert!(stdin.len() < 420_000);
        let numbers: Vec<&str> = rows
            .lines()
            .filter(|row| !row.starts_with("nonce"))
            .map(|row| row.split(' ').rev().nth(2).unwrap())
            .collect();
        for number in [
            "0", "2", "3", "5", "6", "7", "8", "9", "13", "17", "19", "22",
        ] {
            let times = numbers.iter().filter(|&&one| one == number).count();
            assert!(times >= 3, "{} occurs {} times", number, times);
        }
        for number in ["4", "10", "15", "16"] {
            assert!(!numbers.contains(&number));
        }
    }
}
