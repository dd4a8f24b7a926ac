//! Sealed texts and frames to choose from. Sealing takes longer than most calls, so
//! a stock is made once for every `SERVES` calls, from the seed and its own number alone.

use second::chance::Chance;
use second::cipher::{encrypt, instances, sizes};
use second::frame::{framed, framed_escaping, framed_flipping, Fields, Own};
use second::line::{Layout, LAYOUT_A, LAYOUT_B, NEITHER};
use second::near::{layout_line, near_layout, near_line, trade_line};
use second::numbers::{DIGEST, JOB, KEY, LINE_MOST, NONCE};
use second::readings::PRODUCT;
use second::stuffing::{ESCAPE, MARK};

/// Calls that take from one stock.
pub const SERVES: u64 = 2048;

const TEXTS: usize = 24;
const FRAMES: usize = 64;

/// The bytes that stuffing is about.
pub const STUFFING: [u8; 4] = [MARK, ESCAPE, 0x5e, 0x5d];

/// A text sealed under the stock's key.
pub struct Text {
    pub instance: usize,
    pub key: Vec<u8>,
    pub nonce: Vec<u8>,
    pub associated: Vec<u8>,
    pub ciphertext: Vec<u8>,
    pub seal: Vec<u8>,
}

pub struct Stock {
    pub key: Vec<u8>,
    pub font: Vec<u8>,
    pub other_key: Vec<u8>,
    pub other_font: Vec<u8>,
    /// What most of its lines have, and most calls name.
    pub layout: Layout,
    pub texts: Vec<Text>,
    /// Frames of the writer, under the key and the font.
    pub good: Vec<Vec<u8>>,
    /// Frames with something wrong that their marks and stuffing don't show.
    pub wrong: Vec<Vec<u8>>,
}

impl Stock {
    pub fn of(seed: u64, number: u64) -> Stock {
        let chance = &mut Chance::of(!seed, number);
        let (key, font) = (chance.bytes(KEY), stuffy(chance, DIGEST));
        let (mut other_key, mut other_font) = (key.clone(), font.clone());
        chance.flip(&mut other_key);
        chance.flip(&mut other_font);
        let mut stock = Stock {
            key,
            font,
            other_key,
            other_font,
            layout: match number % 4 {
                0 => LAYOUT_A,
                1 => LAYOUT_B,
                _ => NEITHER,
            },
            texts: Vec::new(),
            good: Vec::new(),
            wrong: Vec::new(),
        };
        for _ in 0..TEXTS {
            let text = stock.text(chance);
            stock.texts.push(text);
        }
        for index in 0..FRAMES {
            if index % 2 == 0 {
                let fields = stock.fields(chance);
                stock.good.push(framed(&fields.body()));
            } else {
                let frame = stock.wrong_frame(chance);
                stock.wrong.push(frame);
            }
        }
        stock
    }

    /// Sealed at an instance, with lengths around multiples of its rate among
    /// them.
    fn text(&self, chance: &mut Chance) -> Text {
        let instance = chance.between(*instances().start(), *instances().end());
        let its = sizes(instance).expect("a known instance");
        let (key, nonce) = (chance.bytes(its.key), chance.bytes(its.nonce));
        let (a, p) = (chance.below(20), chance.below(24));
        let (associated, message) = (chance.bytes(a), chance.bytes(p));
        let (ciphertext, seal, _) = encrypt(&PRODUCT, its, &key, &nonce, &associated, &message);
        Text {
            instance,
            key,
            nonce,
            associated,
            ciphertext,
            seal,
        }
    }

    fn fields(&self, chance: &mut Chance) -> Fields {
        let line = line(chance, self.layout);
        self.fields_of(chance, &line)
    }

    fn fields_of(&self, chance: &mut Chance, line: &[u8]) -> Fields {
        let (nonce, job) = (stuffy(chance, NONCE), stuffy(chance, JOB));
        let own = Own {
            nonce: &nonce,
            job: chance.once_in(2).then(|| &job[..]),
        };
        Fields::sealing_own(&self.key, own, &self.font, line).0
    }

    /// Sealed as it should be, but under another key.
    fn fields_other_key(&self, chance: &mut Chance) -> Fields {
        let (nonce, line) = (stuffy(chance, NONCE), line(chance, self.layout));
        Fields::sealing(&self.other_key, &nonce, &self.font, &line).0
    }

    /// Sealed as it should be, but to the digest of another font.
    fn fields_other_font(&self, chance: &mut Chance) -> Fields {
        let (nonce, line) = (stuffy(chance, NONCE), line(chance, self.layout));
        Fields::sealing(&self.key, &nonce, &self.other_font, &line).0
    }

    /// Sealed as it should be, over a line that no writer takes.
    fn fields_unlisted(&self, chance: &mut Chance) -> Fields {
        let mut line = line(chance, self.layout);
        spoil(chance, &mut line);
        self.fields_of(chance, &line)
    }

    /// Sealed as it should be, over listed bytes that are not the trade's line.
    fn fields_not_trade(&self, chance: &mut Chance) -> Fields {
        let line = near_line(chance);
        self.fields_of(chance, &line)
    }

    /// Field 03 of a length that no line has, sealed as it should be.
    fn fields_no_line(&self, chance: &mut Chance) -> Fields {
        let length = chance.one_of(&[0, LINE_MOST + 1, LINE_MOST + 2, 256]);
        self.fields_of(chance, &vec![b'5'; length])
    }

    /// Fields exchanged, doubled, left out.
    fn body_misordered(&self, chance: &mut Chance) -> Vec<u8> {
        let mut whole = self.fields(chance).whole().to_vec();
        let one = chance.below(whole.len());
        match chance.below(3) {
            0 => whole.swap(one, (one + 1) % 4),
            1 => whole.insert(one, whole[one].clone()),
            _ => drop(whole.remove(one)),
        }
        whole.concat()
    }

    /// A tag or a length changed.
    fn body_mistagged(&self, chance: &mut Chance) -> Vec<u8> {
        let fields = self.fields(chance);
        let mut body = fields.body();
        let tag = chance.one_of(&fields.tag_places());
        body[tag + chance.below(3)] ^= chance.one_of(&[1, 2, 3, 4, 0x10, 0x80]);
        body
    }

    fn body_followed(&self, chance: &mut Chance) -> Vec<u8> {
        let mut body = self.fields(chance).body();
        let more = chance.between(1, 5);
        body.extend(chance.bytes(more));
        body
    }

    fn body_cut(&self, chance: &mut Chance) -> Vec<u8> {
        let mut body = self.fields(chance).body();
        body.truncate(chance.between(1, body.len() - 1));
        body
    }

    /// A byte escaped that is no mark and no escape.
    fn needless_escape(&self, chance: &mut Chance) -> Vec<u8> {
        let body = self.fields(chance).body();
        let at = chance.below(body.len());
        framed_escaping(&body, at)
    }

    fn wrong_frame(&self, chance: &mut Chance) -> Vec<u8> {
        match chance.below(22) {
            0 => framed(&self.fields_other_key(chance).body()),
            1 => framed(&self.fields_other_font(chance).body()),
            2..=4 => framed(&self.fields_unlisted(chance).body()),
            // 5 comes before 9 and 13, and 8 before 5.
            5 => framed_flipping(self.fields_unlisted(chance), chance, |its| &mut its.seal),
            6 => framed_flipping(self.fields_other_font(chance), chance, |its| &mut its.seal),
            7 => framed_flipping(self.fields(chance), chance, |its| &mut its.seal),
            8 => framed_flipping(self.fields(chance), chance, |its| &mut its.nonce),
            9 => framed_flipping(self.fields(chance), chance, |its| &mut its.ciphertext),
            10 | 11 => framed(&self.body_misordered(chance)),
            12 | 13 => framed(&self.body_mistagged(chance)),
            14 => framed(&self.fields_no_line(chance).body()),
            15 => framed(&self.body_followed(chance)),
            16 => framed(&self.body_cut(chance)),
            17 => framed_flipping(self.fields_not_trade(chance), chance, |its| &mut its.seal),
            18..=20 => framed(&self.fields_not_trade(chance).body()),
            _ => self.needless_escape(chance),
        }
    }
}

/// A line of the trade: where there is a layout mostly of that, else mostly
/// short; sometimes of any layout, or just not of one.
pub fn line(chance: &mut Chance, layout: Layout) -> Vec<u8> {
    match chance.below(24) {
        0 | 1 => return layout_line(chance, NEITHER),
        2..=5 => return near_layout(chance, layout),
        6..=17 if layout != NEITHER => return layout_line(chance, layout),
        _ => {}
    }
    let length = match chance.below(12) {
        0 => 1,
        1 => chance.between(LINE_MOST - 1, LINE_MOST),
        2 => chance.between(1, LINE_MOST),
        _ => chance.between(1, 14),
    };
    trade_line(chance, length)
}

/// Puts a byte into the line that is not listed: mostly one next to those that
/// are.
pub fn spoil(chance: &mut Chance, line: &mut [u8]) {
    let at = chance.below(line.len());
    let beside = chance.one_of(b"\x1f\x21\x2f\x3a\x40E\0\xff~}abcd");
    let any = chance.byte();
    line[at] = if second::line::listed(any) {
        beside
    } else {
        chance.one_of(&[any, beside])
    };
}

/// Bytes with many marks and escapes among them, so that much is stuffed.
pub fn stuffy(chance: &mut Chance, length: usize) -> Vec<u8> {
    let often = chance.one_of(&[1, 2, 5, 100]);
    (0..length)
        .map(|_| {
            if chance.once_in(often) {
                chance.one_of(&STUFFING)
            } else {
                chance.byte()
            }
        })
        .collect()
}
