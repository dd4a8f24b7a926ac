//! One job: a key and a font, usable or not, and orders, good or not.

use std::fs;
use std::io::Write;
use std::path::Path;
use std::process::{Command, Stdio};

use second::chance::Chance;
use second::compose::compose;
use second::digest::digest;
use second::frame::{framed, Fields, Own};
use second::line::NEITHER;
use second::lines::listing;
use second::near::{layout_line, near_layout, near_line, trade_line};
use second::numbers::{DIGEST, JOB, KEY, LINE_MOST, MESSAGE_LIMIT, NONCE, STREAM_LIMIT};
use second::stuffing::{ESCAPE, MARK};

const LISTED: &[u8] = b"0123456789ABCD ";
const DIGITS: &[u8] = b"0123456789abcdefABCDEF";

/// A file that is not there is none.
pub struct Job {
    key: Option<Vec<u8>>,
    font: Option<Vec<u8>>,
    orders: Vec<u8>,
}

impl Job {
    pub fn by(chance: &mut Chance) -> Job {
        let key_length = match chance.below(12) {
            0 => chance.one_of(&[0, KEY - 1, KEY + 1]),
            _ => KEY,
        };
        let font_length = match chance.below(50) {
            0 => chance.one_of(&[MESSAGE_LIMIT, MESSAGE_LIMIT + 1]),
            _ => chance.below(300),
        };
        let mut orders = Vec::new();
        for _ in 0..chance.below(8) {
            orders.extend(order(chance));
            orders.push(b'\n');
        }
        if chance.once_in(5) {
            orders.extend(order(chance));
        }
        Job {
            key: (!chance.once_in(30)).then(|| chance.bytes(key_length)),
            font: (!chance.once_in(30)).then(|| chance.bytes(font_length)),
            orders,
        }
    }

    /// Through both programs; the name of one that says something else.
    pub fn run(
        &self,
        chance: &mut Chance,
        programs: &Path,
        folder: &Path,
    ) -> Result<(), &'static str> {
        place(&self.key, &folder.join("key.bin"));
        place(&self.font, &folder.join("font.bin"));
        let written = said_by(&programs.join("compose"), folder, &self.orders);
        if written != self.composed() {
            return Err("compose");
        }
        let stream = self.mixed(chance, written.0);
        let stream = damaged(chance, stream);
        let listed = listing(self.key.clone(), self.font.clone(), &stream);
        if said_by(&programs.join("lines"), folder, &stream) != (listed.into_bytes(), Vec::new()) {
            return Err("lines");
        }
        Ok(())
    }

    /// The stream with frames of edition two before it and behind it, under the
    /// job's own key and font: `lines` reads edition one alone.
    fn mixed(&self, chance: &mut Chance, stream: Vec<u8>) -> Vec<u8> {
        let (key, font) = match (&self.key, &self.font) {
            (Some(key), Some(font)) if key.len() == KEY => (key, font),
            _ => return stream,
        };
        let mut digest_of = [0; DIGEST];
        digest(1, font, &mut digest_of);
        let mut frame = || {
            let nonce = chance.bytes(NONCE);
            let job = some_of(chance, &[MARK, ESCAPE, 0, b'7'], JOB);
            let line = line(chance);
            let own = Own {
                nonce: &nonce,
                job: Some(&job),
            };
            framed(&Fields::sealing_own(key, own, &digest_of, &line).0.body())
        };
        match stream.len() % 3 {
            0 => stream,
            1 => [frame(), stream].concat(),
            _ => [frame(), stream, frame()].concat(),
        }
    }

    /// What stands on standard output and on standard error.
    fn composed(&self) -> (Vec<u8>, Vec<u8>) {
        match compose(self.key.clone(), self.font.clone(), &self.orders) {
            Ok(composed) => {
                let rows = composed.reports.iter().map(|row| format!("{}\n", row));
                (composed.frames, rows.collect::<String>().into_bytes())
            }
            Err(refusal) => (Vec::new(), format!("{}\n", refusal).into_bytes()),
        }
    }
}

fn some_of(chance: &mut Chance, bytes: &[u8], length: usize) -> Vec<u8> {
    (0..length).map(|_| chance.one_of(bytes)).collect()
}

/// A line of the trade of any length, of layout A or B, or just not of one:
/// `compose` and `lines` name none, so that all of them go.
fn line(chance: &mut Chance) -> Vec<u8> {
    let length = chance.between(1, LINE_MOST);
    match chance.below(6) {
        0 | 1 => layout_line(chance, NEITHER),
        2 => near_layout(chance, NEITHER),
        _ => trade_line(chance, length),
    }
}

/// An order without its newline, good or wrong.
fn order(chance: &mut Chance) -> Vec<u8> {
    let mut nonce = some_of(chance, DIGITS, 2 * NONCE);
    let mut line = line(chance);
    match chance.below(24) {
        0 => nonce.truncate(chance.below(2 * NONCE)),
        1 => nonce.push(b'0'),
        2 => nonce[0] = b'g',
        3 => line = some_of(chance, LISTED, LINE_MOST + 1),
        4 => line = some_of(chance, LISTED, 300),
        5 => line.clear(),
        6 => line.push(b'\r'),
        7 => return nonce,
        8 => return Vec::new(),
        9 => return some_of(chance, &[0, 9, 32, 48, 65, 255], 60),
        10..=12 => line = near_line(chance),
        13 => line = some_of(chance, LISTED, line.len()),
        _ => {}
    }
    [nonce, vec![b' '], line].concat()
}

/// A few bytes flipped, dropped, inserted or doubled; now and then as long as
/// a stream may be, or longer.
fn damaged(chance: &mut Chance, mut stream: Vec<u8>) -> Vec<u8> {
    for _ in 0..chance.below(5) {
        if stream.is_empty() {
            break;
        }
        let at = chance.below(stream.len());
        match chance.below(4) {
            0 => chance.flip(&mut stream),
            1 => {
                stream.remove(at);
            }
            2 => stream.insert(at, chance.one_of(&[MARK, ESCAPE, 0x5e, 0x5d, b'A'])),
            _ => stream.extend_from_within(at..),
        }
    }
    if chance.once_in(40) {
        stream.resize(STREAM_LIMIT + chance.below(2), MARK);
    }
    stream
}

fn place(file: &Option<Vec<u8>>, path: &Path) {
    match file {
        Some(bytes) => fs::write(path, bytes).expect("a file of the job"),
        None => drop(fs::remove_file(path)),
    }
}

/// What a program writes to standard output and standard error.
fn said_by(program: &Path, folder: &Path, input: &[u8]) -> (Vec<u8>, Vec<u8>) {
    let mut running = Command::new(program)
        .current_dir(folder)
        .stdin(Stdio::piped())
        .stdout(Stdio::piped())
        .stderr(Stdio::piped())
        .spawn()
        .expect("the program starts");
    // A program that refuses its key or font leaves its input unread.
    drop(running.stdin.take().expect("a pipe").write_all(input));
    let ended = running.wait_with_output().expect("the program ends");
    assert!(ended.status.success(), "the manual pages promise status 0");
    (ended.stdout, ended.stderr)
}
