//! Writing to the screen. A reader that goes away (`rehearse show x | head`) is no fault.

use crate::mistake::{mistake, Checked};
use std::io::{self, ErrorKind, IsTerminal, Write};
use std::time::{Duration, Instant};

/// Writes to standard output. Gives whether there is still a reader.
pub fn print(text: &str) -> Checked<bool> {
    let mut out = io::stdout().lock();
    match out.write_all(text.as_bytes()).and_then(|()| out.flush()) {
        Ok(()) => Ok(true),
        Err(error) if error.kind() == ErrorKind::BrokenPipe => Ok(false),
        Err(error) => mistake(format!(
            "standard output can't be written ({error}): free some space or name another file"
        )),
    }
}

pub fn complain(text: &str) {
    // Where standard error can't be written either, the exit status is all that is left to say.
    let _ = io::stderr().lock().write_all(text.as_bytes());
}

/// Letters that nobody sees or that move the others: Unicode's format characters, its separators of lines and paragraphs,
/// and those that a font may leave out.
const UNSEEN: [(char, char); 25] = [
    ('\u{ad}', '\u{ad}'),
    ('\u{34f}', '\u{34f}'),
    ('\u{600}', '\u{605}'),
    ('\u{61c}', '\u{61c}'),
    ('\u{6dd}', '\u{6dd}'),
    ('\u{70f}', '\u{70f}'),
    ('\u{890}', '\u{891}'),
    ('\u{8e2}', '\u{8e2}'),
    ('\u{115f}', '\u{1160}'),
    ('\u{17b4}', '\u{17b5}'),
    ('\u{180b}', '\u{180f}'),
    ('\u{200b}', '\u{200f}'),
    ('\u{2028}', '\u{202e}'),
    ('\u{2060}', '\u{206f}'),
    ('\u{3164}', '\u{3164}'),
    ('\u{fe00}', '\u{fe0f}'),
    ('\u{feff}', '\u{feff}'),
    ('\u{ffa0}', '\u{ffa0}'),
    ('\u{fff0}', '\u{fffb}'),
    ('\u{110bd}', '\u{110bd}'),
    ('\u{110cd}', '\u{110cd}'),
    ('\u{13430}', '\u{1343f}'),
    ('\u{1bca0}', '\u{1bca3}'),
    ('\u{1d173}', '\u{1d17a}'),
    ('\u{e0000}', '\u{e0fff}'),
];

/// Whether a letter is written out, on the screen as in JSON: a text of others could hide behind it.
pub fn is_written_out(letter: char) -> bool {
    let is_unseen = |&(first, last): &(char, char)| (first..=last).contains(&letter);
    letter.is_control() || !letter.is_ascii() && UNSEEN.iter().any(is_unseen)
}

/// A text in one line, with what would move the cursor or is not seen written out: names and texts are others'.
pub fn printable(text: &str) -> String {
    let mut line = String::new();
    for letter in text.chars() {
        match is_written_out(letter) {
            true => line.extend(letter.escape_default()),
            false => line.push(letter),
        }
    }
    line
}

/// A letter in a sentence: as it is, or by its number where it would not be seen.
pub fn letter(letter: char) -> String {
    match is_written_out(letter) || letter.is_whitespace() {
        true => format!("U+{:04X}", u32::from(letter)),
        false => format!("`{letter}`"),
    }
}

/// A text with its middle left out where it is too long to be read.
pub fn shortened(text: &str) -> String {
    let letters = text.chars().count();
    if letters <= 1_000 {
        return text.into();
    }
    let (start, end): (String, String) = (
        text.chars().take(500).collect(),
        text.chars().skip(letters - 300).collect(),
    );
    format!("{start} [{} letters left out] {end}", letters - 800)
}

/// Back to the start of a terminal's line, which is emptied.
const CLEAR: &str = "\r\x1b[K";

/// Prints a long list. On a terminal a line at the bottom says how far it has come, ten times a second at most.
pub struct Lines {
    total: usize,
    is_terminal: bool,
    /// Whether the list goes to the terminal too, where that line would stand in the middle of it.
    shares_screen: bool,
    drawn: Option<Instant>,
    is_shown: bool,
    /// What is to be printed when the line is drawn the next time.
    held: String,
}

impl Lines {
    pub fn of(total: usize) -> Lines {
        let is_terminal = io::stderr().is_terminal();
        Lines {
            total,
            is_terminal,
            shares_screen: is_terminal && io::stdout().is_terminal(),
            drawn: None,
            is_shown: false,
            held: String::new(),
        }
    }

    /// Prints a line, the last of so many.
    pub fn print(&mut self, line: &str, done: usize) -> Checked<()> {
        self.held += line;
        let is_old = |drawn: Instant| drawn.elapsed() >= Duration::from_millis(100);
        let is_due = self.is_terminal && self.drawn.is_none_or(is_old);
        if is_due || !self.shares_screen {
            self.release()?;
        }
        if is_due {
            complain(&format!("{CLEAR}{done} of {}", self.total));
            (self.drawn, self.is_shown) = (Some(Instant::now()), true);
        }
        Ok(())
    }

    /// Takes the line at the bottom away, and prints what is still held.
    pub fn finish(mut self) -> Checked<()> {
        self.clear();
        self.release()
    }

    fn release(&mut self) -> Checked<()> {
        if self.shares_screen {
            self.clear();
        }
        let printed = print(&std::mem::take(&mut self.held));
        if printed.is_err() {
            self.clear();
        }
        printed.map(|_| ())
    }

    fn clear(&mut self) {
        if std::mem::take(&mut self.is_shown) {
            complain(CLEAR);
        }
    }
}

#[cfg(test)]
mod tests {
    use super::*;

    #[test]
    fn letters_that_nobody_sees_are_written_out() {
        for (first, last) in [
            (0x00, 0x1f),
            (0x7f, 0x9f),
            (0x200b, 0x200f),
            (0x2028, 0x202e),
            (0x2060, 0x206f),
        ] {
            for number in first..=last {
                assert!(is_written_out(char::from_u32(number).unwrap()), "{number:x}");
            }
        }
        for number in [
            0xad, 0x61c, 0x180e, 0xfe0f, 0xfeff, 0xfff9, 0xfffb, 0xe0001, 0xe0020, 0xe007f, 0xe01ef,
        ] {
            assert!(is_written_out(char::from_u32(number).unwrap()), "{number:x}");
        }
        for seen in " ~\u{a0}äßéжשع中あ한ไद́\u{2010}\u{2027}\u{fffd}🚚".chars() {
            assert!(!is_written_out(seen), "{seen:?}");
        }
        assert!(UNSEEN.windows(2).all(|pair| pair[0].1 < pair[1].0));
    }

    #[test]
    fn a_letter_is_named() {
        for (given, named) in [
            ('g', "`g`"),
            ('é', "`é`"),
            ('\u{a0}', "U+00A0"),
            ('\u{202e}', "U+202E"),
            ('\n', "U+000A"),
        ] {
            assert_eq!(letter(given), named);
        }
    }

    #[test]
    fn a_text_of_others_stays_in_its_line() {
        assert_eq!(printable("\u{202e}x"), "\\u{202e}x");
        assert_eq!(printable("a\u{200b}\u{e0041}"), "a\\u{200b}\\u{e0041}");
        assert_eq!(printable("a\rb\n\u{1b}[2Kc\td é"), "a\\rb\\n\\u{1b}[2Kc\\td é");
        assert_eq!(shortened(&"é".repeat(1_000)), "é".repeat(1_000));
        let long = shortened(&format!("{}{}", "a".repeat(9_000), "z".repeat(300)));
        assert!(long.starts_with("aaa") && long.ends_with(&format!(" [8500 letters left out] {}", "z".repeat(300))));
    }
}
