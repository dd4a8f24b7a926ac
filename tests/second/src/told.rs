//! What writer, reader and converter are told alike: the key, the font's digest
//! and the layout of lines, or none (order W7).

use crate::line::{Layout, NEITHER};
use crate::numbers::{DIGEST, KEY};

#[derive(Clone, Copy)]
pub struct Told<'a> {
    pub key: &'a [u8],
    pub digest: &'a [u8],
    pub layout: Layout,
}

impl<'a> Told<'a> {
    /// No layout is named.
    pub const fn of(key: &'a [u8], digest: &'a [u8]) -> Told<'a> {
        Told {
            key,
            digest,
            layout: NEITHER,
        }
    }

    pub const fn under(self, layout: Layout) -> Told<'a> {
        Told { layout, ..self }
    }

    /// Whether key and digest have their sizes.
    pub fn sized(&self) -> bool {
        self.key.len() == KEY && self.digest.len() == DIGEST
    }
}
