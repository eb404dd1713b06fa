//! The lines of a text form: words, with the number of their line. `#` starts a comment; empty lines are free.

use crate::hex;
use crate::mistake::{mistake, Checked};
use crate::quoting::quoted;

pub struct Line<'a> {
    /// The text's name, for mistakes.
    pub of: &'a str,
    pub number: usize,
    /// Its text without a comment.
    pub said: &'a str,
    /// The words of that, at most `MOST_WORDS`.
    pub words: Vec<&'a str>,
}

/// More words than any line has, but for `behind`, whose words are not taken one by one. A line can be as long as a file.
const MOST_WORDS: usize = 32;

/// The lines with a word in them. A line ends in a line feed, a carriage return, or both.
pub fn lines<'a>(text: &'a str, of: &'a str) -> impl Iterator<Item = Line<'a>> {
    let ended = text.split('\n');
    let ended = ended.flat_map(|line| line.strip_suffix('\r').unwrap_or(line).split('\r'));
    let lines = ended.enumerate().map(move |(at, line)| {
        let said = line.split('#').next().unwrap_or("");
        Line {
            of,
            number: at + 1,
            said,
            words: said.split_whitespace().take(MOST_WORDS).collect(),
        }
    });
    lines.filter(|line| !line.words.is_empty())
}

/// The words that lines of both text forms start with.
const FIRST: [&str; 17] = [
    "behind",
    "station",
    "arrival",
    "key",
    "interface",
    "path",
    "curr_inf",
    "curr_hf",
    "reserved",
    "reserved_flags",
    "segment",
    "cons_dir",
    "peering",
    "seg_id",
    "beta",
    "timestamp",
    "hop",
];

impl<'a> Line<'a> {
    /// A mistake in this line; `write` is what to write instead.
    pub fn wrong<T>(&self, write: impl AsRef<str>) -> Checked<T> {
        let word = self.words.first().copied().unwrap_or("");
        let is_meant = |first: &&&str| word != **first && word.eq_ignore_ascii_case(first);
        match FIRST.iter().find(is_meant) {
            Some(word) => mistake(format!("{}: write `{word}` in small letters", self.place())),
            None => mistake(format!("{}: {}", self.place(), write.as_ref())),
        }
    }

    /// Where this line is, for mistakes about one of its words.
    pub fn place(&self) -> String {
        format!("{}, line {}", self.of, self.number)
    }

    /// The one word behind the first.
    pub fn only(&self, example: &str) -> Checked<&'a str> {
        match self.words[..] {
            [_, word] => Ok(word),
            _ => self.wrong(format!("write one word behind `{}`, as `{example}`", self.words[0])),
        }
    }

    /// A whole number up to a highest one.
    pub fn number_up_to(&self, word: &str, highest: u16) -> Checked<u16> {
        let number = word
            .parse()
            .ok()
            .filter(|&number| number <= highest && !word.starts_with('+'));
        match number {
            Some(number) => Ok(number),
            None => self.wrong(format!("{} is no whole number from 0 to {highest}", quoted(word))),
        }
    }

    /// So many bytes as hex digits; `name` is the word before them.
    pub fn hex<const N: usize>(&self, name: &str, word: &str) -> Checked<[u8; N]> {
        let wrong = |why| self.wrong(format!("write {} hex digits behind `{name}`{why}", 2 * N));
        hex::exactly(word).or_else(wrong)
    }
}

/// Puts a value where there is none yet; `name` is what stands for it in the text.
pub fn once<T>(place: &mut Option<T>, value: T, line: &Line<'_>, name: &str) -> Checked<()> {
    match place.replace(value) {
        None => Ok(()),
        Some(_) => line.wrong(format!("{name} stands here a second time: leave one of them")),
    }
}
