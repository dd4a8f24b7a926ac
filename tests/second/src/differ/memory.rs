//! Memory to lend. A buffer stands between canaries, or at a page that can't be
//! touched, so that writing beside it is seen and reading beside it is caught;
//! an empty one may stand nowhere.

use std::ptr;

extern "C" {
    fn mmap(at: *mut u8, size: usize, access: i32, kind: i32, file: i32, offset: i64) -> *mut u8;
    fn mprotect(at: *mut u8, size: usize, access: i32) -> i32;
}

// Linux, as in sys/mman.h.
const NO_ACCESS: i32 = 0;
const READ_WRITE: i32 = 1 | 2;
const OWN_UNBACKED: i32 = 0x02 | 0x20 | 0x4000;

const PAGE: usize = 4096;

/// Canary bytes on each side of a buffer.
pub const CANARY: usize = 64;

/// A buffer's bytes shifted by so many at most, for every alignment.
pub const SHIFTS: usize = 16;

#[derive(Clone, Copy, Debug)]
pub enum Stand {
    /// Between two canaries, shifted from where a word would start.
    Between(usize),
    /// From the first byte behind a page that can't be touched.
    AtStart,
    /// Up to the last byte before one.
    AtEnd,
    /// An empty buffer at an address that is nobody's.
    Nowhere(usize),
    /// A part of an earlier buffer, from its byte so many on.
    Within(usize, usize),
}

/// Pages that can be read and written, between two that can't be touched.
pub struct Ground {
    start: *mut u8,
    size: usize,
}

/// Where a buffer was put: itself, and all that is looked at afterwards.
#[derive(Clone, Copy)]
pub struct Put {
    pub at: *mut u8,
    pub length: usize,
    from: usize,
    to: usize,
}

impl Ground {
    /// Pages cost nothing before they are touched.
    pub fn new(least: usize) -> Ground {
        let size = (least + PAGE - 1) / PAGE * PAGE;
        // SAFETY: fresh pages at an address of the system's own choosing.
        unsafe {
            let whole = mmap(
                ptr::null_mut(),
                size + 2 * PAGE,
                NO_ACCESS,
                OWN_UNBACKED,
                -1,
                0,
            );
            assert_ne!(whole as isize, -1, "no memory for {} bytes", size);
            let start = whole.add(PAGE);
            assert_eq!(
                mprotect(start, size, READ_WRITE),
                0,
                "no memory for {} bytes",
                size
            );
            Ground { start, size }
        }
    }

    fn bytes(&mut self, from: usize, to: usize) -> &mut [u8] {
        assert!(from <= to && to <= self.size);
        // SAFETY: within the pages, which only this ground hands out.
        unsafe { std::slice::from_raw_parts_mut(self.start.add(from), to - from) }
    }

    /// Puts the bytes where they shall stand, canaries beside them.
    pub fn put(&mut self, bytes: &[u8], stand: Stand) -> Put {
        let (before, after) = match stand {
            Stand::Between(shift) => (CANARY + shift, CANARY),
            Stand::AtStart => (0, CANARY),
            Stand::AtEnd => (CANARY, 0),
            Stand::Nowhere(_) | Stand::Within(..) => panic!("such a buffer needs no ground"),
        };
        let whole = before + bytes.len() + after;
        let from = match stand {
            Stand::AtEnd => self.size - whole,
            _ => 0,
        };
        let at = from + before;
        let ground = self.bytes(from, from + whole);
        let own = before..before + bytes.len();
        for place in (0..own.start).chain(own.end..whole) {
            ground[place] = canary(place);
        }
        ground[own].copy_from_slice(bytes);
        Put {
            // SAFETY: within the pages.
            at: unsafe { self.start.add(at) },
            length: bytes.len(),
            from,
            to: from + whole,
        }
    }

    /// The buffer's bytes now, and whether all canaries are as they were.
    pub fn left(&mut self, put: &Put) -> (Vec<u8>, bool) {
        let before = put.at as usize - self.start as usize - put.from;
        let ground = self.bytes(put.from, put.to);
        let own = before..before + put.length;
        let kept = (0..own.start)
            .chain(own.end..ground.len())
            .all(|place| ground[place] == canary(place));
        (ground[own].to_vec(), kept)
    }

    /// Puts the bytes with `more` zeros behind them. All of this ground is zero
    /// but for its first bytes.
    pub fn put_vast(&mut self, bytes: &[u8], more: usize) -> Put {
        self.bytes(0, VAST_BYTES + CANARY).fill(0);
        self.bytes(0, bytes.len()).copy_from_slice(bytes);
        Put {
            at: self.start,
            length: bytes.len() + more,
            from: 0,
            to: VAST_BYTES + CANARY,
        }
    }

    /// The same of a vast buffer: its first bytes now, and whether the zeros
    /// next to them are as they were.
    pub fn left_vast(&mut self, length: usize) -> (Vec<u8>, bool) {
        let kept = self
            .bytes(length, VAST_BYTES + CANARY)
            .iter()
            .all(|&byte| byte == 0);
        (self.bytes(0, length).to_vec(), kept)
    }
}

impl Put {
    pub fn nowhere(address: usize) -> Put {
        Put {
            at: address as *mut u8,
            length: 0,
            from: 0,
            to: 0,
        }
    }

    /// So many bytes of it from one of its bytes on.
    pub fn part(&self, from: usize, length: usize) -> Put {
        assert!(from + length <= self.length);
        Put {
            at: self.at.wrapping_add(from),
            length,
            ..*self
        }
    }

    /// SAFETY: it still stands, not at nowhere, and nothing else looks at it.
    pub unsafe fn bytes<'a>(&self) -> &'a mut [u8] {
        std::slice::from_raw_parts_mut(self.at, self.length)
    }
}

/// More zeros than a 32-bit length can say.
pub const VAST: usize = 1 << 32;
/// The most bytes before them.
pub const VAST_BYTES: usize = 8192;

fn canary(place: usize) -> u8 {
    (place as u8).wrapping_mul(37) ^ 0xa5
}
