//! `rows_seal`: one call and one row for each case of the case file, which seals,
//! opens, writes a frame or converts a stretch.

use super::{edition, frame, gathered, in_bytes, layout, seal};
use crate::cipher;
use crate::convert::convert;
use crate::digest::digest;
use crate::frame::{write_own, Own};
use crate::line::Layout;
use crate::numbers::DIGEST;
use crate::text::value;
use crate::told::Told;

/// Buffers from this length on are printed as their instance 1 digest.
const PRINTED_AS_DIGEST: usize = 4096;

/// What buffers hold before the call.
pub const BEFORE: u8 = 0xee;

#[derive(Clone, Copy)]
pub enum Call {
    Seal,
    Open,
    Write,
    WriteTwo,
    ToOne,
    ToTwo,
}

/// The arguments of a call: instance is the cipher's (of a frame 0), text is the
/// message, the ciphertext, the line or the stretch, associated what is
/// associated with it (of a frame the font digest), seal what the seal's buffer
/// holds before (of a frame of edition two the job), and layout that of the line
/// (neither where a call knows none).
#[derive(Clone)]
pub struct Case {
    pub call: Call,
    pub instance: usize,
    pub key: Vec<u8>,
    pub nonce: Vec<u8>,
    pub associated: Vec<u8>,
    pub text: Vec<u8>,
    pub seal: Vec<u8>,
    pub room: usize,
    pub layout: Layout,
}

/// A case and how its row begins.
pub type Named = (String, Case);

/// What a call gives: its number, the length of a frame, its count and both
/// buffers.
pub struct Given {
    number: u8,
    length: usize,
    count: usize,
    pub out: Vec<u8>,
    pub seal: Vec<u8>,
}

impl Case {
    pub fn given(&self) -> Given {
        let mut out = vec![BEFORE; self.room];
        let mut seal = self.seal.clone();
        let (number, length, count) = self.answered(&mut out, &mut seal);
        Given {
            number,
            length,
            count,
            out,
            seal,
        }
    }

    /// Number, length and count.
    fn answered(&self, out: &mut [u8], seal: &mut [u8]) -> (u8, usize, usize) {
        let (key, nonce, associated) = (&self.key, &self.nonce, &self.associated);
        match self.call {
            Call::Seal => {
                let answer =
                    cipher::seal(self.instance, key, nonce, associated, &self.text, out, seal);
                (answer.number, 0, answer.count)
            }
            Call::Open => {
                let answer =
                    cipher::open(self.instance, key, nonce, associated, &self.text, seal, out);
                (answer.number, 0, answer.count)
            }
            Call::Write | Call::WriteTwo => {
                let answer = write_own(self.told(), self.own(), &self.text, out);
                (answer.number, answer.length, answer.count)
            }
            Call::ToOne | Call::ToTwo => {
                let answer = convert(self.told(), &self.text, self.own(), out);
                (answer.number, answer.length, 0)
            }
        }
    }

    /// What a writer and a converter are told.
    fn told(&self) -> Told<'_> {
        Told::of(&self.key, &self.associated).under(self.layout)
    }

    /// What the frame that a call makes has as its own.
    fn own(&self) -> Own<'_> {
        Own {
            nonce: &self.nonce,
            job: match self.call {
                Call::WriteTwo | Call::ToTwo => Some(&self.seal),
                _ => None,
            },
        }
    }

    /// As the case file holds it: the lengths of the name and of the five
    /// parts, the room, which call, the instance and the layout; then the name
    /// and the parts.
    fn stored(&self, name: &str) -> Vec<u8> {
        let parts = [
            name.as_bytes(),
            &self.key,
            &self.nonce,
            &self.associated,
            &self.text,
            &self.seal,
        ];
        let mut head: Vec<usize> = parts.iter().map(|part| part.len()).collect();
        head.extend([self.room, self.call as usize, self.instance, self.layout.0]);
        let head: Vec<[u8; 4]> = head.into_iter().map(in_bytes).collect();
        [head.concat(), parts.concat()].concat()
    }

    fn row(&self, name: &str) -> String {
        let given = self.given();
        format!(
            "{} {} {} {} {} {}",
            name,
            given.number,
            given.length,
            given.count,
            shown(&given.out),
            value(&given.seal)
        )
    }
}

fn shown(buffer: &[u8]) -> String {
    if buffer.len() < PRINTED_AS_DIGEST {
        return value(buffer);
    }
    let mut out = [0; DIGEST];
    digest(1, buffer, &mut out);
    value(&out)
}

/// The case file, and what must be printed for it.
pub fn stdin_and_rows() -> (Vec<u8>, String) {
    let cases = [
        seal::cases(),
        frame::cases(),
        edition::calls(),
        layout::calls(),
    ]
    .concat();
    gathered(cases, |(name, case)| (case.stored(&name), case.row(&name)))
}
