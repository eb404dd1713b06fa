//! The words of a call, taken apart by what its command takes.

use crate::mistake::{mistake, Checked};
use crate::nearest::nearest;
use crate::output::shortened;
use crate::quoting::quoted;
use std::ffi::{OsStr, OsString};
use std::path::Path;

/// What a command takes.
pub struct Form {
    pub command: &'static str,
    /// The names of the words that are no options, at most so many.
    pub places: &'static [&'static str],
    /// The options with a value, each with what the value is.
    pub values: &'static [(&'static str, &'static str)],
    /// The options without one.
    pub flags: &'static [&'static str],
}

/// A call's words, by their names.
pub struct Arguments {
    form: &'static Form,
    places: Vec<OsString>,
    values: Vec<(&'static str, OsString)>,
    flags: Vec<&'static str>,
}

impl Arguments {
    pub fn read(form: &'static Form, words: &[OsString]) -> Checked<Arguments> {
        let mut read = Arguments {
            form,
            places: Vec::new(),
            values: Vec::new(),
            flags: Vec::new(),
        };
        let mut words = words.iter();
        let mut options_end = false;
        while let Some(word) = words.next() {
            match word.to_str() {
                Some("--") if !options_end => options_end = true,
                Some(option) if !options_end && option.starts_with('-') && option != "-" => {
                    read.option(option, &mut words)?;
                }
                None if !options_end && word.to_string_lossy().starts_with('-') => {
                    return read.wrong(format!(
                        "{} is no UTF-8: write a value behind its option, with a space between",
                        quoted(&word.to_string_lossy())
                    ));
                }
                _ => read.places.push(word.clone()),
            }
        }
        let read_values = read
            .values
            .iter()
            .filter(|(name, _)| !matches!(*name, "-o" | "--write"));
        let files = read.places.iter().chain(read_values.map(|(_, value)| value));
        if files.filter(|name| *name == "-").count() > 1 {
            return mistake("standard input is named twice: only one of the files can be -");
        }
        match read.places.get(form.places.len()) {
            None => Ok(read),
            Some(word) => read.wrong(format!(
                "{} is one word too many; a file name or a date with a space goes between quotes",
                word_shown(word)
            )),
        }
    }

    fn option<'a>(&mut self, option: &str, words: &mut impl Iterator<Item = &'a OsString>) -> Checked<()> {
        let (name, given) = match option.split_once('=') {
            Some((name, value)) => (name, Some(OsString::from(value))),
            None => (option, None),
        };
        if let Some(&flag) = self.form.flags.iter().find(|&&flag| flag == name) {
            if given.is_some() {
                return self.wrong(format!("{flag} takes no value"));
            }
            self.flags.push(flag);
            return Ok(());
        }
        let Some(&(name, what)) = self.form.values.iter().find(|&&(value, _)| value == name) else {
            let (name, meant) = (quoted(name), self.meant(name));
            return self.wrong(format!("{name} is not an option of this command{meant}"));
        };
        let behind = || words.next().filter(|word| !self.is_option(word)).cloned();
        let Some(value) = given.or_else(behind) else {
            return self.wrong(format!("{name} needs a value behind it ({what})"));
        };
        if self.value(name).is_some() {
            return self.wrong(format!("{name} is given twice"));
        }
        self.values.push((name, value));
        Ok(())
    }

    /// What may have been meant. Commands differ in how they name the file to write.
    fn meant(&self, name: &str) -> String {
        let mut options = self.form.values.iter().map(|(option, _)| *option);
        let meant = match name {
            "-o" | "--out" | "--output" | "--write" => options.find(|option| matches!(*option, "-o" | "--write")),
            _ => nearest(name, options.chain(self.form.flags.iter().copied())),
        };
        match meant {
            Some(option) => format!(", but {option} is"),
            None if name.starts_with("--") || name.len() < 3 => String::new(),
            None => "; a file of that name is written with ./ before it".into(),
        }
    }

    /// Whether a word is an option to the eye. As a value it has to be given as `--option=VALUE`.
    fn is_option(&self, word: &OsStr) -> bool {
        let word = word.to_string_lossy();
        let name = word.split('=').next().unwrap_or("");
        let is_short = self.form.values.iter().any(|(option, _)| *option == name);
        name.starts_with("--") || is_short
    }

    /// A mistake, with where to read on.
    pub fn wrong<T>(&self, why: impl Into<String>) -> Checked<T> {
        let command = self.form.command;
        mistake(format!("{}: see `rehearse {command} --help`", why.into()))
    }

    pub fn flag(&self, name: &str) -> bool {
        self.flags.contains(&name)
    }

    pub fn value(&self, name: &str) -> Option<&OsStr> {
        let given = self.values.iter().find(|(value, _)| *value == name);
        given.map(|(_, value)| value.as_os_str())
    }

    /// The value of an option that the command can't do without.
    pub fn given(&self, name: &str) -> Checked<&OsStr> {
        match self.value(name) {
            Some(value) => Ok(value),
            None => {
                let what = self.form.values.iter().find(|&&(value, _)| value == name);
                self.wrong(format!("{name} is missing ({})", what.map_or("", |(_, what)| what)))
            }
        }
    }

    /// The same as text.
    pub fn needed(&self, name: &str) -> Checked<&str> {
        let value = self.given(name)?;
        value.to_str().map_or_else(
            || {
                let value = quoted(&value.to_string_lossy());
                mistake(format!("{name}: {value} is no UTF-8: rename it"))
            },
            Ok,
        )
    }

    pub fn place(&self, at: usize) -> Option<&OsStr> {
        self.places.get(at).map(OsString::as_os_str)
    }

    /// A file that the command can't do without.
    pub fn file(&self, at: usize, what: &str) -> Checked<&OsStr> {
        match self.place(at) {
            Some(name) => Ok(name),
            None => self.wrong(format!(
                "{} is missing ({what}, - for standard input)",
                self.form.places[at]
            )),
        }
    }

    /// A whole number from 0 to 65535; `what` is its name in a mistake.
    pub fn number(&self, name: &str, what: &str) -> Checked<u16> {
        let text = self.needed(name)?;
        match text.parse().ok().filter(|_| !text.starts_with('+')) {
            Some(number) => Ok(number),
            None => mistake(format!(
                "{name}: {} is no {what}: write a whole number from 0 to 65535",
                quoted(text)
            )),
        }
    }
}

/// A word that has no place in the call. It may be half of a key, unless there is a file of that name.
fn word_shown(word: &OsStr) -> String {
    let text = word.to_string_lossy();
    match Path::new(word).exists() {
        true => format!("`{}`", shortened(&text)),
        false => quoted(&text),
    }
}
