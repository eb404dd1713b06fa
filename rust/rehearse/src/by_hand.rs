//! Whether somebody may have written a file by hand: no such file is written over.

use crate::files::without_mark;
use crate::hex;

/// Text, but for hex: in whatever letters, and with some control characters among them.
pub fn is_text(bytes: &[u8]) -> bool {
    let is_hex = hex::is_hex(without_mark(bytes));
    !is_hex && (is_wide(bytes) || !starts_as_ours(bytes) && is_of_letters(bytes))
}

/// UTF-16, by its mark or by a 0 in every other byte. The first 40 bytes tell: there a header with reserved bits of zero has
/// the flags of a hop, and a sound plan zeros side by side.
fn is_wide(bytes: &[u8]) -> bool {
    let is_marked = bytes.starts_with(&[0xff, 0xfe]) || bytes.starts_with(&[0xfe, 0xff]);
    let alternates = |start: &[u8], zero: usize| {
        let mut pairs = start.chunks(2);
        pairs.all(|pair| pair[zero] == 0 && is_in_texts(pair[1 - zero]))
    };
    let start = bytes.get(..40);
    is_marked || start.is_some_and(|start| alternates(start, 0) || alternates(start, 1))
}

/// A header with reserved bits of zero has three bytes below 4 among its first six, whatever is behind it: the second, and the
/// two after the meta word or, without a hop, the last two of the meta word. A sound plan has four zeros there.
fn starts_as_ours(bytes: &[u8]) -> bool {
    bytes.iter().take(6).filter(|&&byte| byte < 4).count() >= 3
}

/// Three bytes of four belong to letters, where of random ones two of five do. Letters that are neither ASCII nor UTF-8 can't
/// be told from other bytes, but no long file of bytes is without any that no text has.
fn is_of_letters(bytes: &[u8]) -> bool {
    let letters = bytes.utf8_chunks().flat_map(|chunk| chunk.valid().chars());
    let letters = letters.filter(|&letter| u8::try_from(letter).map_or(true, is_in_texts));
    let size: usize = letters.map(char::len_utf8).sum();
    4 * size >= 3 * bytes.len() || bytes.len() >= 64 && bytes.iter().all(|&byte| is_in_texts(byte))
}

/// Whether texts have such a byte: that of a letter, white space, or what turns up in copies from a terminal or a printer.
fn is_in_texts(byte: u8) -> bool {
    matches!(byte, 0x08..=b'\r' | 0x1b | b' '..=b'~' | 0x80..)
}

#[cfg(test)]
mod tests {
    use super::*;

    const TEXT: &str = "# Hall A\nstation\n    arrival 0\n    key 30a1f2c4b5d697e8091a2b3c4d5e6f70\n";

    fn wide(text: &str) -> [Vec<u8>; 2] {
        let units: Vec<u16> = text.encode_utf16().collect();
        [
            units.iter().flat_map(|unit| unit.to_le_bytes()).collect(),
            units.iter().flat_map(|unit| unit.to_be_bytes()).collect(),
        ]
    }

    /// Numbers that look random, the same in every run.
    fn bytes(count: usize, state: &mut u64) -> Vec<u8> {
        let mut next = || {
            *state = state
                .wrapping_mul(6_364_136_223_846_793_005)
                .wrapping_add(1_442_695_040_888_963_407);
            (*state >> 33) as u8
        };
        (0..count).map(|_| next()).collect()
    }

    #[test]
    fn a_text_stays_one_with_a_control_character_anywhere() {
        for control in (0..0x20).chain([0x7f]).map(char::from) {
            for at in 0..TEXT.len() {
                let mut text = TEXT.to_string();
                text.insert(at, control);
                assert!(is_text(text.as_bytes()), "{text:?}");
            }
        }
        for text in ["statoin", "?", "\u{1b}[31mred\u{1b}[0m", "N\u{8}NA\u{8}AM\u{8}ME\u{8}E"] {
            assert!(is_text(text.as_bytes()), "{text:?}");
        }
    }

    #[test]
    fn a_text_is_one_in_whatever_letters() {
        let texts = [
            "# Kühlhalle Süd, Tor 4\nstation\n    arrival 0\n",
            "station\n    arrival 0\n# Холодный склад: зал\n",
        ];
        for text in texts {
            assert!(is_text(text.as_bytes()), "{text}");
            for plain in wide(text) {
                assert!(is_text(&plain), "{plain:?}");
            }
            for marked in wide(&format!("\u{feff}{text}")) {
                assert!(is_text(&marked), "{marked:?}");
            }
        }
        // A Russian sentence in KOI8-R, and a text in UTF-8 with a byte that is not.
        let sentence = "Holodnyj sklad: zal A i zal B, mevdu nimi stancija jadra. ".repeat(2);
        let koi8 = sentence
            .bytes()
            .map(|byte| byte | u8::from(byte.is_ascii_alphabetic()) << 7);
        assert!(is_text(&koi8.collect::<Vec<u8>>()));
        assert!(is_text(&[texts[1].as_bytes(), b"\xff\n"].concat()));
    }

    /// Hex, headers and plans may be written over, whatever is behind a header.
    #[test]
    fn nothing_of_ours_is_a_text() {
        assert!(!is_text(b"") && !is_text(b" \n") && !is_text(b"\xef\xbb\xbf00 ab\n"));
        let mut state = 1;
        for round in 0..400_usize {
            let (infos, hops) = (round % 4, round % 4 * (2 + round % 5));
            let mut header = vec![0x73, (round % 4) as u8 * u8::from(hops > 0), 0x74, 0];
            if hops == 0 {
                header[2] = 0;
            }
            for _ in 0..infos {
                header.extend([(round % 3) as u8, 0]);
                header.extend(bytes(6, &mut state));
            }
            for _ in 0..hops {
                header.push((round % 4) as u8);
                header.extend(bytes(11, &mut state));
            }
            let texts = [&b""[..], &TEXT.repeat(40).into_bytes(), &wide(&TEXT.repeat(40))[0]];
            for behind in texts {
                assert!(!is_text(&[&header, behind].concat()), "{header:?}");
            }
            let mut plan = vec![0; 32];
            plan[..2].copy_from_slice(&(round as u16).to_be_bytes());
            plan.extend(bytes(64, &mut state));
            assert!(!is_text(&plan), "{plan:?}");
        }
    }

    #[test]
    fn other_bytes_are_no_text() {
        let mut state = 2;
        for round in 0..2_000 {
            let bytes = bytes(40 + round % 200, &mut state);
            assert!(!is_text(&bytes), "{bytes:?}");
        }
        // A meta word with reserved bits, and no hop.
        assert!(!is_text(&[0x41, 0x40, 0, 0]));
    }
}
