//! Words of others in a sentence. Sentences end in logs and in letters to others, and no key may get there with them.
//!
//! Plans and calls have keys in them, and a slip of the hand puts a key, or a part of it, where another word is read. So
//! eight hex digits one behind the other are not quoted: they may be of a key. What is said instead is how long the word
//! is. Signs between digits do not part them (`30:a1:f2:c4`, `0x30, 0xa1`), other letters do; but a word that is sixteen
//! hex digits for the most part is a key with slips.
//!
//! Times and the names of files have digits of their own. In their places up to 18 digits, as many as a date with its time
//! and its zone has, are quoted, unless letters from a to f are mixed with them (`e5f60718`, but not `hall-a-20261116`).

use crate::output::shortened;
use std::ffi::OsString;

/// The fewest hex digits that are taken for a part of a key.
const FEWEST: usize = 8;

/// The fewest that are taken for it where other letters part them.
const FEWEST_PARTED: usize = 16;

/// The most digits of a time or a date.
const DATE: usize = 18;

/// A word between backquotes, or how long it is if it may hold a key.
pub fn quoted(word: &str) -> String {
    let digits = word.chars().filter(char::is_ascii_hexdigit).count();
    let is_parted = digits >= FEWEST_PARTED && 2 * digits > word.chars().count();
    match is_parted || has_digits(word, |digits, _| digits >= FEWEST) {
        true => left_out("word", word),
        false => format!("`{}`", shortened(word)),
    }
}

/// The same in the place of a time.
pub fn quoted_time(text: &str) -> String {
    match may_hold_key(text) {
        true => left_out("word", text),
        false => format!("`{}`", shortened(text)),
    }
}

/// Whether what stands in the place of a time or of a file's name may hold a key.
pub fn may_hold_key(text: &str) -> bool {
    has_digits(text, |digits, is_mixed| digits >= FEWEST && (is_mixed || digits > DATE))
}

/// What is said of a text that may hold a key; `what` is what it should be. A word of the call is told by its place there.
pub fn left_out(what: &str, text: &str) -> String {
    let letters = text.chars().count();
    let place = place_in(std::env::args_os().skip(1), text);
    let place = place.map_or(String::new(), |place| format!("word {place} of the call, "));
    format!("{place}a {what} of {letters} letters that may hold a key")
}

/// The place of a word, counted from 1; it may be the value behind an option's `=` or a name behind `@`.
fn place_in(words: impl Iterator<Item = OsString>, text: &str) -> Option<usize> {
    let mut words = words.map(|word| word.to_string_lossy().into_owned());
    let is_it =
        |word: String| word == text || word.ends_with(&format!("={text}")) || word.ends_with(&format!("@{text}"));
    words.position(is_it).map(|at| at + 1)
}

/// Whether hex digits of a key stand in a text. `are_key` is asked with their number and whether letters are mixed with
/// decimal digits somewhere.
fn has_digits(text: &str, are_key: impl Fn(usize, bool) -> bool) -> bool {
    let (mut digits, mut is_mixed) = (0, false);
    // Since the last sign.
    let (mut decimals, mut letters) = (0, 0);
    for letter in text.chars() {
        match letter {
            '0'..='9' => decimals += 1,
            'a'..='f' | 'A'..='F' => letters += 1,
            // Of `0x30` or `\x30`.
            'x' | 'X' if decimals < 2 && letters == 0 => continue,
            _ => {
                (decimals, letters) = (0, 0);
                if letter.is_alphanumeric() {
                    (digits, is_mixed) = (0, false);
                }
                continue;
            }
        }
        digits += 1;
        is_mixed |= letters > 0 && decimals > 0 || letters >= FEWEST;
        if are_key(digits, is_mixed) {
            return true;
        }
    }
    false
}

#[cfg(test)]
mod tests {
    use super::*;

    const KEY: &str = "30a1f2c4b5d697e8091a2b3c4d5e6f70";

    #[test]
    fn a_key_is_not_quoted() {
        let pairs: Vec<&str> = (0..16).map(|at| &KEY[2 * at..2 * at + 2]).collect();
        let mut keys = vec![
            KEY.to_string(),
            KEY.to_uppercase(),
            KEY[1..].into(),
            KEY.replace('9', "g"),
            format!("0x{KEY}"),
            format!("key={KEY}"),
            format!("key:{KEY}"),
            format!("--key{KEY}"),
            format!("\"{KEY}\""),
            format!("@{KEY}"),
            format!("{KEY}.txt"),
            format!("0x{}", pairs.join(", 0x")),
            format!("\\x{}", pairs.join("\\x")),
            KEY[..8].into(),
            KEY[24..].into(),
            "é30a1f2c4".into(),
        ];
        assert_ne!(quoted("30a1f2cgb5d697eg091a2b3g"), "`30a1f2cgb5d697eg091a2b3g`");
        keys.extend([":", " ", "-", ", ", "\u{200b}", "\u{a0}", "_"].map(|sign| pairs.join(sign)));
        keys.extend([4, 8, 16].map(|size| {
            let groups: Vec<&str> = (0..32 / size).map(|at| &KEY[at * size..(at + 1) * size]).collect();
            groups.join(" ")
        }));
        for key in keys {
            let said = format!("a word of {} letters that may hold a key", key.chars().count());
            assert_eq!((quoted(&key), quoted_time(&key)), (said.clone(), said), "{key}");
        }
        for digits in ["0".repeat(32), "12345678901234567890".into()] {
            assert!(may_hold_key(&digits), "{digits}");
        }
        assert_ne!(quoted("12345678"), "`12345678`");
    }

    #[test]
    fn a_word_is_told_by_its_place() {
        let call = ["step", "p", "--key=30a1f2c4", "--plan", "e5f60718", "@b5d697e8"];
        let place = |text: &str| place_in(call.iter().map(OsString::from), text);
        assert_eq!(
            ["30a1f2c4", "e5f60718", "b5d697e8", "30a1"].map(place),
            [Some(3), Some(5), Some(6), None]
        );
    }

    #[test]
    fn other_words_are_quoted() {
        for word in [
            "",
            "arival",
            "65536",
            "-1",
            "30a1f2c",
            "decade",
            "1:uncle:up",
            "good.path",
            "interface",
        ] {
            assert_eq!(quoted(word), format!("`{word}`"));
        }
        for time in [
            "1794809100",
            "17948091000",
            "1794809100000",
            "20261116T060500Z",
            "2026-02-30",
            "2026-11-16T06:00:00+01:00",
            "2026-11-16 06:05:00 CET",
            "2026-11-16 06:05:00 +0100",
            "yesterday",
        ] {
            assert_eq!(quoted_time(time), format!("`{time}`"));
        }
        for name in [
            "site-20261116.plan",
            "hall-a-20261116.plan",
            "/data/2026-11-16/hall-a.path",
            "20261116060500.path",
            "node-7/lab-20261116",
            "15 Dec 2026",
        ] {
            assert!(!may_hold_key(name), "{name}");
        }
        assert!(quoted(&"n".repeat(5_000)).contains(" [4200 letters left out] "));
    }
}
