//! Bytes as hex text, and back.

use crate::mistake::{mistake, Checked};
use crate::output;

pub fn to_hex(bytes: &[u8]) -> String {
    let mut text = String::with_capacity(2 * bytes.len());
    push_hex(bytes, &mut text);
    text
}

fn push_hex(bytes: &[u8], text: &mut String) {
    for digit in bytes.iter().flat_map(|byte| [byte >> 4, byte & 15]) {
        text.push(char::from(b"0123456789abcdef"[usize::from(digit)]));
    }
}

/// Whether these bytes could be hex text: digits and white space only.
pub fn is_hex(text: &[u8]) -> bool {
    text.iter()
        .all(|byte| byte.is_ascii_hexdigit() || byte.is_ascii_whitespace())
}

/// The first character that hex text does not have, with its place.
pub fn first_wrong(text: &[u8]) -> Option<String> {
    let at = text.iter().position(|byte| !is_hex(&[*byte]))?;
    let is_end = |at: &usize| text[*at] == b'\n' || text[*at] == b'\r' && text.get(at + 1) != Some(&b'\n');
    let line = (0..at).filter(is_end).count() + 1;
    // All before it is ASCII, so that a byte is a character there.
    let place = at - (0..at).rev().find(is_end).map_or(0, |end| end + 1) + 1;
    let rest = &text[at..];
    let letter = String::from_utf8_lossy(&rest[..rest.len().min(4)]).chars().next();
    let name = match letter {
        Some(letter) if !letter.is_ascii_control() && letter != char::REPLACEMENT_CHARACTER => output::letter(letter),
        _ => format!("the byte {:02x}", text[at]),
    };
    Some(format!(
        "character {place} of line {line} is {name} and no hex digit: hex text has the digits 0 to 9 and a to f and \
         white space only"
    ))
}

/// The bytes that a hex text stands for. `of` is what it is the text of.
pub fn from_hex(text: &[u8], of: &str) -> Checked<Vec<u8>> {
    if let Some(why) = first_wrong(text) {
        return mistake(format!("{of}: {why}"));
    }
    let mut digits = text.iter().filter_map(|&byte| char::from(byte).to_digit(16));
    let count = digits.clone().count();
    if count % 2 == 1 {
        return mistake(format!(
            "{of}: {count} hex digits are an odd number: a byte has two, so that one is missing or one too many"
        ));
    }
    let mut bytes = Vec::with_capacity(count / 2);
    while let (Some(high), Some(low)) = (digits.next(), digits.next()) {
        bytes.push((high << 4 | low) as u8);
    }
    Ok(bytes)
}

/// So many bytes from hex digits, or what to say behind "write 32 hex digits" if they are not. They may be a key's, so that
/// none is quoted.
pub fn exactly<const N: usize>(text: &str) -> Result<[u8; N], String> {
    let is_wrong = |letter: char| !letter.is_ascii_hexdigit() && !letter.is_whitespace();
    if let Some((at, wrong)) = text.chars().enumerate().find(|&(_, letter)| is_wrong(letter)) {
        let is_prefix = matches!(text.get(..2), Some("0x" | "0X"));
        let advice = if is_prefix { " (leave out the `0x`)" } else { "" };
        let (place, count, wrong) = (at + 1, text.chars().count(), output::letter(wrong));
        return Err(format!(": character {place} of {count} is {wrong}{advice}"));
    }
    let digits = || text.chars().filter_map(|letter| letter.to_digit(16));
    let count = digits().count();
    if count != 2 * N {
        return Err(format!(", not {count}"));
    }
    let mut bytes = [0; N];
    for (at, digit) in digits().enumerate() {
        bytes[at / 2] = bytes[at / 2] << 4 | digit as u8;
    }
    Ok(bytes)
}

/// Hex text with a line for each part; the parts' sizes, then lines of 32 bytes.
pub fn lines(bytes: &[u8], sizes: impl IntoIterator<Item = usize>) -> String {
    let mut text = String::with_capacity(2 * bytes.len() + bytes.len() / 32 + 128);
    let mut rest = bytes;
    for size in sizes.into_iter().chain(std::iter::repeat(32)) {
        if rest.is_empty() {
            break;
        }
        let (part, behind) = rest.split_at(size.min(rest.len()));
        push_hex(part, &mut text);
        text.push('\n');
        rest = behind;
    }
    text
}

#[cfg(test)]
mod tests {
    use super::*;

    #[test]
    fn hex_is_read_with_white_space_and_either_case() {
        assert_eq!(from_hex(b" 0A\n0b\tf f\r\n", "t").unwrap(), [10, 11, 255]);
        assert_eq!(from_hex(b"", "t").unwrap(), []);
        assert!(from_hex(b"0a0", "t").is_err());
        assert!(from_hex(b"0g", "t").is_err());
    }

    #[test]
    fn so_many_digits_are_read_or_it_is_said_why_not() {
        assert_eq!(exactly("0a0B"), Ok([10, 11]));
        assert_eq!(exactly(" 0a\u{a0}0b\n"), Ok([10, 11]));
        for (text, why) in [
            ("", ", not 0"),
            ("0a0", ", not 3"),
            ("0a0b0", ", not 5"),
            ("0a0g", ": character 4 of 4 is `g`"),
            ("0a 0é", ": character 5 of 5 is `é`"),
            ("\"0a0b\"", ": character 1 of 6 is `\"`"),
            ("0x0a0b", ": character 2 of 6 is `x` (leave out the `0x`)"),
            ("0a0b\u{200b}", ": character 5 of 5 is U+200B"),
        ] {
            assert_eq!(exactly::<2>(text), Err(why.into()), "{text}");
        }
    }

    #[test]
    fn a_wrong_character_is_named() {
        for (text, name) in [
            (&b"0g"[..], "character 2 of line 1 is `g` "),
            (b"00\n0\xc2\xa0", "character 2 of line 2 is U+00A0 "),
            (b"00\r\n0g", "character 2 of line 2 is `g` "),
            (b"00\r\r0\rg", "character 1 of line 4 is `g` "),
            ("\u{202e}".as_bytes(), "character 1 of line 1 is U+202E "),
            (b"0\x00", "character 2 of line 1 is the byte 00 "),
            (b"0\xff", "character 2 of line 1 is the byte ff "),
        ] {
            let said = first_wrong(text).unwrap();
            assert!(said.starts_with(name), "{said}");
        }
    }

    #[test]
    fn lines_hold_all_bytes() {
        assert_eq!(lines(&[1, 2, 3], [2]), "0102\n03\n");
        assert_eq!(lines(&[1], [4, 8]), "01\n");
        assert_eq!(lines(&[], [4]), "");
    }
}
