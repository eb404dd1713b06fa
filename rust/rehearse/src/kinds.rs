//! What a text is that stands where a header or a plan is asked for. It is only named, so that the next call is right.

use crate::hex;
use crate::lines::lines;

pub enum Kind {
    /// The text form of a plan.
    Plan,
    /// The text form of a path.
    Path,
    /// Hex text but for something, with what that is.
    AlmostHex(String),
    Other,
}

pub fn of(text: &str) -> Kind {
    let first = lines(text, "").next().map_or("", |line| line.words[0]);
    let is_first = |words: &[&str]| words.iter().any(|word| first.eq_ignore_ascii_case(word));
    match hex::first_wrong(text.as_bytes()) {
        _ if is_first(&["station"]) => Kind::Plan,
        _ if is_first(&["path", "segment", "behind"]) => Kind::Path,
        Some(why) if is_mostly_hex(text) => Kind::AlmostHex(why),
        _ => Kind::Other,
    }
}

/// Whether half of the letters are hex digits, comments left out. Of a text in words about a third are.
fn is_mostly_hex(text: &str) -> bool {
    let (mut digits, mut letters) = (0, 0);
    for letter in lines(text, "").flat_map(|line| line.said.chars()) {
        letters += usize::from(!letter.is_whitespace());
        digits += usize::from(letter.is_ascii_hexdigit());
    }
    digits > 0 && 2 * digits >= letters
}

#[cfg(test)]
mod tests {
    use super::*;

    #[test]
    fn texts_are_told_apart() {
        assert!(matches!(of("# a\n\nstation\n"), Kind::Plan));
        assert!(matches!(of("Segment none\n"), Kind::Path));
        for (text, place) in [
            ("0000 20g3 0000", "character 8 of line 1 is `g`"),
            ("0x00002083", "character 2 of line 1 is `x`"),
            ("0x00, 0x00, 0x20", "character 2 of line 1 is `x`"),
            ("00:00:20:83", "character 3 of line 1 is `:`"),
            ("# a header of mine\n00002083\n", "character 1 of line 1 is `#`"),
            ("00002083\n 00é0\n", "character 4 of line 2 is `é`"),
            (
                "00000000: 0000 2083 0000 ffa3 6afa 9be0 0100 0000  .. .....j.......\n",
                "character 9 of line 1 is `:`",
            ),
        ] {
            let Kind::AlmostHex(why) = of(text) else {
                panic!("{text}")
            };
            assert!(why.starts_with(place), "{text}: {why}");
        }
        for text in ["", "# 00\n", "a path from hall A to hall B", "hello"] {
            assert!(matches!(of(text), Kind::Other), "{text}");
        }
    }
}
