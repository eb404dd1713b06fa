//! A site plan: its stations, and the text form in which people write them.

use crate::files::{almost_hex, shown, Files, Held, Spelling};
use crate::hex::to_hex;
use crate::interfaces::{self, Interface};
use crate::itinerary::{self, MOST_RECORDS, TOO_MANY};
use crate::kinds::{self, Kind};
use crate::lines::{lines, once, Line};
use crate::mistake::{mistake, Checked};
use crate::quoting::quoted;
use std::ffi::OsStr;

#[derive(Debug, Clone, PartialEq, Eq)]
pub struct Station {
    pub arrival: u16,
    pub key: [u8; 16],
    pub interfaces: Vec<Interface>,
}

/// A station whose lines are still being read.
struct Draft {
    line: usize,
    arrival: Option<u16>,
    key: Option<[u8; 16]>,
    interfaces: Vec<Interface>,
}

impl Draft {
    fn read(&mut self, line: &Line<'_>) -> Checked<()> {
        match line.words[0] {
            "arrival" => {
                let word = line.only("arrival 0")?;
                once(&mut self.arrival, line.number_up_to(word, u16::MAX)?, line, "`arrival`")
            }
            "key" => {
                let word = line.only("key 000102030405060708090a0b0c0d0e0f")?;
                once(&mut self.key, line.hex("key", word)?, line, "`key`")
            }
            "interface" => {
                self.interfaces.push(interfaces::from_words(line, &line.words[1..])?);
                Ok(())
            }
            word => line.wrong(format!(
                "{} is not known here: a plan has the words station, arrival, key and interface",
                quoted(word)
            )),
        }
    }

    fn finished(self, of: &str) -> Checked<Station> {
        let lacks = |what: &str| mistake(format!("{of}, line {}: this station has no {what}", self.line));
        match (self.arrival, self.key) {
            (None, _) => lacks(
                "`arrival`: add `arrival 0` below the first station, `arrival` and the interface's number below a later one",
            ),
            (_, None) => lacks("`key`: add `key` and 32 hex digits below it"),
            (Some(arrival), Some(key)) => Ok(Station {
                arrival,
                key,
                interfaces: self.interfaces,
            }),
        }
    }
}

/// The stations of a text, in order. Whether a plan is sound is asked by the library, not here.
pub fn from_text(text: &str, of: &str) -> Checked<Vec<Station>> {
    let mut drafts: Vec<Draft> = Vec::new();
    let mut records = 1;
    for line in lines(text, of) {
        records += usize::from(matches!(line.words[0], "station" | "interface"));
        if records > MOST_RECORDS {
            return line.wrong(TOO_MANY);
        }
        match (&line.words[..], drafts.last_mut()) {
            (["station"], _) => drafts.push(Draft {
                line: line.number,
                arrival: None,
                key: None,
                interfaces: Vec::new(),
            }),
            (["station", ..], _) => return line.wrong("write `station` alone; a name goes behind a #"),
            (_, Some(draft)) => draft.read(&line)?,
            (["path" | "segment" | "behind", ..], None) => {
                return line.wrong("this is the text form of a path and no plan: `rehearse sign` takes it")
            }
            (_, None) => return line.wrong("a plan starts with the word `station` on a line of its own"),
        }
    }
    drafts.into_iter().map(|draft| draft.finished(of)).collect()
}

/// The text form, as `from_text` reads it.
pub fn to_text(stations: &[Station]) -> String {
    let mut text = String::new();
    for station in stations {
        text += &format!(
            "station\n    arrival {}\n    key {}\n",
            station.arrival,
            to_hex(&station.key)
        );
        for &(number, state) in &station.interfaces {
            text += &format!("    interface {number} {}\n", interfaces::state_words(state));
        }
    }
    text
}

/// The bytes of a plan: raw, hex, or its text form.
///
/// A sound plan's first byte is below 8, since the first station's index is below 2,048, so that no sound plan is text.
pub fn read(files: &Files, name: &OsStr, spelling: Spelling) -> Checked<Vec<u8>> {
    let text = match files.read_bytes(name, spelling)? {
        Held::Bytes(bytes) => return Ok(bytes),
        Held::Text(text) => text,
    };
    match kinds::of(&text) {
        Kind::AlmostHex(why) => mistake(almost_hex(&shown(name), &why)),
        _ => itinerary::to_bytes(&from_text(&text, &shown(name))?),
    }
}
