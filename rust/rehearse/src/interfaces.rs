//! Interfaces of a station as people write them: number, kind and state.

use crate::files::Files;
use crate::lines::{lines, Line};
use crate::mistake::{mistake, Checked};
use crate::quoting::quoted;
use std::ffi::OsStr;

/// An interface: its number and its state byte.
pub type Interface = (u16, u8);

/// The kinds of links, by the two lowest bits of a state.
pub const KINDS: [&str; 4] = ["core", "parent", "child", "peer"];

const EXAMPLE: &str = "write `interface 1 child up`: a number, then core, parent, child or peer, then up or down";

/// The words of a line behind `interface`.
pub fn from_words(line: &Line<'_>, words: &[&str]) -> Checked<Interface> {
    let &[number, kind, state] = words else {
        return line.wrong(EXAMPLE);
    };
    let number = line.number_up_to(number, u16::MAX)?;
    if kind == "state" {
        return Ok((number, line.number_up_to(state, 255)? as u8));
    }
    let place = KINDS.iter().position(|&known| known == kind);
    match (place, state) {
        (Some(kind), "up") => Ok((number, kind as u8 + 4)),
        (Some(kind), "down") => Ok((number, kind as u8)),
        (Some(_), _) => line.wrong(format!("{} is no state of a link: write up or down", quoted(state))),
        (None, _) => line.wrong(format!(
            "{} is no kind of link: write core, parent, child or peer",
            quoted(kind)
        )),
    }
}

/// Kind and state, or the byte where it stands for none.
pub fn state_words(state: u8) -> String {
    match KINDS.get(usize::from(state % 4)) {
        Some(kind) if state < 8 => format!("{kind} {}", if state < 4 { "down" } else { "up" }),
        _ => format!("state {state}"),
    }
}

/// A table as it is given to a step: a file, or in place. Nothing is asked of the numbers' order.
pub fn table(files: &Files, given: &OsStr) -> Checked<Vec<Interface>> {
    let text = given.to_string_lossy();
    if let Some(file) = text.strip_prefix('@') {
        return from_file(files, OsStr::new(file));
    }
    if text.contains(':') {
        return text.split(',').map(from_inline).collect();
    }
    from_file(files, given)
}

fn from_file(files: &Files, name: &OsStr) -> Checked<Vec<Interface>> {
    let text = files.read_text(name);
    let text = text.or_else(|why| mistake(format!("--table: {}; in place a table is written 1:child:up", why.0)))?;
    let shown = crate::files::shown(name);
    let read = lines(&text, &shown).map(|line| match line.words[..] {
        ["interface", ref words @ ..] => from_words(&line, words),
        ["station"] => line.wrong("this is a plan and no table: take a station of it with `--plan PLAN --station 0`"),
        _ => line.wrong(EXAMPLE),
    });
    read.collect()
}

fn from_inline(entry: &str) -> Checked<Interface> {
    let words: Vec<&str> = entry.trim().split(':').collect();
    let line = Line {
        of: "--table",
        number: 1,
        said: "",
        words: Vec::new(),
    };
    from_words(&line, &words).or_else(|_| {
        mistake(format!(
            "--table: {} is no interface: write 1:child:up, with commas between interfaces, or name a file with lines as \
             `interface 1 child up`, with @ before its name if that has a colon",
            quoted(entry)
        ))
    })
}

#[cfg(test)]
mod tests {
    use super::*;
    use standard_path::AsRoutingInterfaceState;
    use standard_path::AsRoutingLinkType::{LinkToChild, LinkToCore, LinkToParent, LinkToPeer};

    #[test]
    fn the_words_are_the_library_s_states() {
        for (kind, link_type) in [
            ("core", LinkToCore),
            ("parent", LinkToParent),
            ("child", LinkToChild),
            ("peer", LinkToPeer),
        ] {
            for (word, is_up) in [("up", true), ("down", false)] {
                let state = AsRoutingInterfaceState { link_type, is_up }.byte();
                assert_eq!(from_inline(&format!("7:{kind}:{word}")).unwrap(), (7, state));
                assert_eq!(state_words(state), format!("{kind} {word}"));
            }
        }
    }

    #[test]
    fn every_state_byte_is_its_words_and_back() {
        for state in 0..=255 {
            let words = state_words(state).replace(' ', ":");
            assert_eq!(from_inline(&format!("1:{words}")).unwrap(), (1, state));
        }
        for wrong in [
            "",
            "1",
            "1:child",
            "1:child:up:up",
            "65536:child:up",
            "-1:child:up",
            "1:state:256",
            "1:kid:up",
        ] {
            assert!(from_inline(wrong).is_err(), "{wrong}");
        }
    }
}
