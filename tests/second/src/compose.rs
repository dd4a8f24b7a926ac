//! The program `compose`: one order a row, the nonce as 24 hex digits, a
//! blank, the line; out come the frames. Rows it can't seal are reported.

use crate::frame::write;
use crate::lines::{font_digest, usable_key};
use crate::numbers::{DONE, FRAME_ROOM};
use crate::text::unhex;
use crate::told::Told;

/// Frames for standard output, reports for standard error.
#[derive(Debug, PartialEq, Eq)]
pub struct Composed {
    pub frames: Vec<u8>,
    pub reports: Vec<String>,
}

pub fn compose(
    key: Option<Vec<u8>>,
    font: Option<Vec<u8>>,
    orders: &[u8],
) -> Result<Composed, &'static str> {
    let key = usable_key(key)?;
    let font = font_digest(font)?;
    let told = Told::of(&key, &font);
    let mut composed = Composed {
        frames: Vec::new(),
        reports: Vec::new(),
    };
    let (rows, cut_off) = rows(orders);
    for (index, order) in rows.iter().enumerate() {
        let (nonce, line) = nonce_and_line(order);
        let mut frame = [0; FRAME_ROOM];
        let answer = write(told, &nonce, line, &mut frame);
        if answer.number == DONE {
            composed.frames.extend(&frame[..answer.length]);
        } else {
            let report = format!("row {} refused {}", index + 1, answer.number);
            composed.reports.push(report);
        }
    }
    if cut_off {
        let report = format!("row {} cut off, not sealed", rows.len() + 1);
        composed.reports.push(report);
    }
    Ok(composed)
}

/// The rows, each of which ends in a newline, and whether something stands
/// behind the last newline: half an order, which is none.
fn rows(orders: &[u8]) -> (Vec<&[u8]>, bool) {
    let mut rows: Vec<&[u8]> = orders.split(|&byte| byte == b'\n').collect();
    let cut_off = rows.pop().map_or(false, |rest| !rest.is_empty());
    (rows, cut_off)
}

/// The nonce stands before the first blank and the line after it. What is no
/// row of hex digits is no nonce: it is empty, and the writer's 2 refuses it.
fn nonce_and_line(order: &[u8]) -> (Vec<u8>, &[u8]) {
    let blank = order.iter().position(|&byte| byte == b' ');
    let (nonce, line) = match blank {
        None => (order, &order[order.len()..]),
        Some(blank) => (&order[..blank], &order[blank + 1..]),
    };
    (unhex(nonce).unwrap_or_default(), line)
}

#[cfg(test)]
mod tests {
    use super::*;
    use crate::lines::listing;

    #[test]
    fn composed_orders_are_listed() {
        let (key, font) = (Some(vec![3; 16]), Some(vec![5; 100]));
        let orders = b"000102030405060708090a0b A123456789A\n\
            000102030405060708090a0 1\n\
            000102030405060708090A0C  7 \n\
            \n\
            000102030405060708090a0d\n\
            000102030405060708090a0e 12x\n\
            000102030405060708090a0f 12\n\
            000102030405060708090a10 A12345678A\n\
            000102030405060708090a11 1";
        let composed = compose(key.clone(), font.clone(), orders).unwrap();
        let reports = ["row 2 refused 2", "row 4 refused 2", "row 5 refused 3"];
        assert_eq!(composed.reports[..3], reports);
        let last = [
            "row 6 refused 9",
            "row 8 refused 13",
            "row 9 cut off, not sealed",
        ];
        assert_eq!(composed.reports[3..], last);
        let listed = listing(key, font, &composed.frames);
        let texts: Vec<&str> = listed
            .lines()
            .map(|row| row.split_once(' ').unwrap().1)
            .collect();
        assert_eq!(texts, ["0 A123456789A", "0  7 ", "0 12", "3 refused 0"]);
    }

    #[test]
    fn no_key_and_no_font() {
        assert_eq!(compose(None, None, b""), Err("no key"));
        assert_eq!(compose(Some(vec![0; 16]), None, b""), Err("no font"));
    }
}
