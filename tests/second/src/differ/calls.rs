//! The calls of include/lubdhvani.h as data: what each takes and gives, what a
//! case of it is, and what an answer is.

use crate::memory::Stand;
use second::line::{Layout, LAYOUT_A, LAYOUT_B};
use second::reader::Asked;

/// What a reading is, as the header numbers it.
pub const END: usize = 0;
pub const LINE: usize = 1;
pub const STRETCH_REFUSED: usize = 2;
pub const CALL_REFUSED: usize = 3;

#[derive(Clone, Copy, Debug, PartialEq, Eq)]
pub enum Call {
    Permute,
    Unpermute,
    Digest,
    Seal,
    Open,
    Write,
    WriteTwo,
    NextStretch,
    Read,
    ToOne,
    ToTwo,
    BundleWrite,
    BundleRead,
    BundleDigest,
    BundleName,
    BundleRows,
}

/// What the header says of a call. Buffers stand in the header's order; the
/// last `written` of them are the ones it may write.
pub struct Signature {
    pub call: Call,
    pub name: &'static str,
    /// The argument that is a plain number.
    pub number: Option<&'static str>,
    pub buffers: &'static [&'static str],
    pub written: usize,
    /// The numbers that go out beside it, in a struct.
    pub outs: &'static [&'static str],
    /// Every answer it can give: a test that misses one has not tested it.
    pub outcomes: &'static [&'static str],
}

/// The permutation and its inverse take and give the same.
const fn permuting(call: Call, name: &'static str) -> Signature {
    Signature {
        call,
        name,
        number: Some("rounds"),
        buffers: &["state"],
        written: 1,
        outs: &[],
        outcomes: &["0", "1", "18"],
    }
}

/// The converter's two calls answer alike.
const fn converting(call: Call, name: &'static str, buffers: &'static [&'static str]) -> Signature {
    Signature {
        call,
        name,
        number: None,
        buffers,
        written: 1,
        outs: &["length"],
        outcomes: &[
            "0", "0 of A", "0 of B", "2", "4", "7", "6", "16", "8", "5", "9", "13", "17",
        ],
    }
}

pub static SIGNATURES: [Signature; 16] = [
    permuting(Call::Permute, "lubdhvani_permute"),
    permuting(Call::Unpermute, "lubdhvani_unpermute"),
    Signature {
        call: Call::Digest,
        name: "lubdhvani_digest",
        number: Some("instance"),
        buffers: &["message", "out"],
        written: 1,
        outs: &["calls"],
        outcomes: &["0", "1", "3", "4"],
    },
    Signature {
        call: Call::Seal,
        name: "lubdhvani_seal",
        number: Some("instance"),
        buffers: &["key", "nonce", "associated", "message", "out", "seal"],
        written: 2,
        outs: &["calls"],
        outcomes: &["0", "1", "2", "3", "4"],
    },
    Signature {
        call: Call::Open,
        name: "lubdhvani_open",
        number: Some("instance"),
        buffers: &["key", "nonce", "associated", "cipher", "seal", "out"],
        written: 1,
        outs: &["calls"],
        outcomes: &["0", "1", "2", "3", "4", "5"],
    },
    Signature {
        call: Call::Write,
        name: "lubdhvani_write",
        number: None,
        buffers: &["key", "nonce", "font", "line", "frame"],
        written: 1,
        outs: &["length", "calls"],
        outcomes: &["0", "0 of A", "0 of B", "2", "3", "9", "13", "17", "4"],
    },
    Signature {
        call: Call::WriteTwo,
        name: "lubdhvani_write_two",
        number: None,
        buffers: &["key", "nonce", "font", "job", "line", "frame"],
        written: 1,
        outs: &["length", "calls"],
        outcomes: &["0", "0 of A", "0 of B", "2", "3", "9", "13", "17", "4"],
    },
    Signature {
        call: Call::NextStretch,
        name: "lubdhvani_next_stretch",
        number: Some("from"),
        buffers: &["stream"],
        written: 0,
        outs: &["first", "closing"],
        outcomes: &["stretch", "none"],
    },
    Signature {
        call: Call::Read,
        name: "lubdhvani_read",
        number: Some("from"),
        buffers: &["stream", "key", "font", "line"],
        written: 1,
        outs: &[
            "first", "closing", "length", "calls", "edition", "job", "outcome",
        ],
        outcomes: &[
            "line", "line A", "line B", "end", "2", "3", "4", "10", "7", "6", "8", "15", "5", "9",
            "13", "17",
        ],
    },
    converting(
        Call::ToOne,
        "lubdhvani_to_one",
        &["stretch", "key", "font", "nonce", "frame"],
    ),
    converting(
        Call::ToTwo,
        "lubdhvani_to_two",
        &["stretch", "key", "font", "nonce", "job", "frame"],
    ),
    Signature {
        call: Call::BundleWrite,
        name: "lubdhvani_bundle_write",
        number: None,
        buffers: &["name", "rows", "bundle"],
        written: 1,
        outs: &["length"],
        outcomes: &["0", "11", "12", "4"],
    },
    Signature {
        call: Call::BundleRead,
        name: "lubdhvani_bundle_read",
        number: None,
        buffers: &["bundle"],
        written: 0,
        outs: &["length"],
        outcomes: &["0", "11", "12"],
    },
    Signature {
        call: Call::BundleDigest,
        name: "lubdhvani_bundle_digest",
        number: None,
        buffers: &["bundle", "out"],
        written: 1,
        outs: &[],
        outcomes: &["0", "3", "11", "12", "4"],
    },
    Signature {
        call: Call::BundleName,
        name: "lubdhvani_bundle_name",
        number: None,
        buffers: &["bundle"],
        written: 0,
        outs: &["first", "length"],
        outcomes: &["part", "none"],
    },
    Signature {
        call: Call::BundleRows,
        name: "lubdhvani_bundle_rows",
        number: Some("character"),
        buffers: &["bundle"],
        written: 0,
        outs: &["first", "length"],
        outcomes: &["part", "none"],
    },
];

impl Call {
    pub fn signature(self) -> &'static Signature {
        let its_own = SIGNATURES.iter().find(|signature| signature.call == self);
        its_own.expect("every call has its signature")
    }

    /// Writers, reader and converter are told a layout.
    pub fn knows_layouts(self) -> bool {
        use Call::{Read, ToOne, ToTwo, Write, WriteTwo};
        matches!(self, Write | WriteTwo | Read | ToOne | ToTwo)
    }
}

/// A buffer to lend: its bytes before the call, then `more` zeros where its
/// length shall not fit 32 bits, and where it stands.
pub struct Buffer {
    pub bytes: Vec<u8>,
    pub more: usize,
    pub stand: Stand,
}

impl Buffer {
    pub fn length(&self) -> usize {
        self.bytes.len() + self.more
    }
}

pub struct Case {
    pub call: Call,
    /// The instance, the place or the character asked for; else 0.
    pub number: usize,
    /// What a reader is told anew.
    pub asked: Asked,
    /// For the calls that know layouts.
    pub layout: Layout,
    pub buffers: Vec<Buffer>,
}

/// What a call leaves behind. `number` is 0 where the call returns none.
#[derive(PartialEq, Eq)]
pub struct Answer {
    pub number: usize,
    pub outs: Vec<usize>,
    /// The bytes of every buffer, in order.
    pub after: Vec<Vec<u8>>,
    /// Names of buffers beside which something was written.
    pub strayed: Vec<&'static str>,
}

impl Answer {
    /// The answer's name among its call's outcomes: a line of a layout that was
    /// named is an outcome of its own.
    pub fn outcome(&self, case: &Case) -> String {
        let outcome = self.plain_outcome(case.call);
        match (case.layout, &outcome[..]) {
            (LAYOUT_A, "line") => "line A".to_string(),
            (LAYOUT_B, "line") => "line B".to_string(),
            (LAYOUT_A, "0") if case.call.knows_layouts() => "0 of A".to_string(),
            (LAYOUT_B, "0") if case.call.knows_layouts() => "0 of B".to_string(),
            _ => outcome,
        }
    }

    fn plain_outcome(&self, call: Call) -> String {
        match (call, &self.outs[..]) {
            (Call::NextStretch, [first, closing]) if first < closing => "stretch".to_string(),
            (Call::NextStretch, _) => "none".to_string(),
            (Call::BundleName, [_, length]) | (Call::BundleRows, [_, length]) => {
                if *length > 0 { "part" } else { "none" }.to_string()
            }
            (Call::Read, [.., LINE]) => "line".to_string(),
            (Call::Read, [.., END]) => "end".to_string(),
            _ => self.number.to_string(),
        }
    }
}
