//! Stuffing as in RFC 1662 with two stuffed bytes, and unstuffing by two rules
//! that hand over to each other: one outside an escape and one inside it.

pub const MARK: u8 = 0x7e;
pub const ESCAPE: u8 = 0x7d;
const ESCAPED_MARK: u8 = 0x5e;
const ESCAPED_ESCAPE: u8 = 0x5d;

pub fn stuff(body: &[u8]) -> Vec<u8> {
    let mut stuffed = Vec::new();
    for &byte in body {
        match byte {
            MARK => stuffed.extend([ESCAPE, ESCAPED_MARK]),
            ESCAPE => stuffed.extend([ESCAPE, ESCAPED_ESCAPE]),
            _ => stuffed.push(byte),
        }
    }
    stuffed
}

/// The body, or none where the stuffing is bad.
pub fn unstuff(stretch: &[u8]) -> Option<Vec<u8>> {
    let mut body = Vec::new();
    let mut inside = false;
    for &byte in stretch {
        inside = if inside {
            inside_escape(byte, &mut body)?
        } else {
            outside_escape(byte, &mut body)?
        };
    }
    // A stretch that ends inside an escape has a dangling 7D.
    if inside {
        None
    } else {
        Some(body)
    }
}

/// Takes one byte outside an escape; says whether the next one is inside.
fn outside_escape(byte: u8, body: &mut Vec<u8>) -> Option<bool> {
    match byte {
        MARK => None,
        ESCAPE => Some(true),
        _ => {
            body.push(byte);
            Some(false)
        }
    }
}

/// Takes the byte after 0x7D: only 5E or 5D may stand there.
fn inside_escape(byte: u8, body: &mut Vec<u8>) -> Option<bool> {
    match byte {
        ESCAPED_MARK => body.push(MARK),
        ESCAPED_ESCAPE => body.push(ESCAPE),
        _ => return None,
    }
    Some(false)
}

#[cfg(test)]
mod tests {
    use super::*;

    #[test]
    fn stuffing_is_undone_for_every_pair_of_bytes() {
        for a in 0..=255 {
            for b in 0..=255 {
                let body = [a, b, 0x00, b, a];
                let stuffed = stuff(&body);
                assert!(!stuffed.contains(&MARK));
                assert_eq!(unstuff(&stuffed), Some(body.to_vec()));
            }
        }
    }

    #[test]
    fn whatever_unstuffs_is_what_stuffing_makes() {
        let bytes = [0x00, 0x5d, 0x5e, 0x7d, 0x7e];
        for number in 0..5usize.pow(5) {
            let stretch: Vec<u8> = (0..5).map(|k| bytes[number / 5usize.pow(k) % 5]).collect();
            if let Some(body) = unstuff(&stretch) {
                assert_eq!(stuff(&body), stretch);
            }
        }
    }

    #[test]
    fn bad_stuffing() {
        for bad in [
            &[0x7d][..],
            &[0x7d, 0x41],
            &[0x7d, 0x7d, 0x5d],
            &[0x7d, 0x7e],
            &[0x7e],
            &[0x41, 0x7e, 0x41],
            &[0x41, 0x7d],
        ] {
            assert_eq!(unstuff(bad), None);
        }
        assert_eq!(unstuff(&[]), Some(vec![]));
    }
}
