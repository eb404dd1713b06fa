//! The station at which a step is made: written out in the call, or named by its place in a plan.

use super::plan::turned_down;
use crate::arguments::Arguments;
use crate::files::{plain_text, shown, without_mark, Files, Spelling};
use crate::hex;
use crate::interfaces;
use crate::itinerary;
use crate::mistake::{mistake, Checked};
use crate::plan::{self, Station};
use crate::report::counted;
use crate::seen::path_as_plan;
use standard_path::ForwardingKey;
use std::ffi::OsStr;

/// How a call names its station.
pub enum Named<'a> {
    Written { table: &'a OsStr, key: &'a str },
    InPlan { plan: &'a OsStr, place: usize },
}

impl Named<'_> {
    pub fn in_call(arguments: &Arguments) -> Checked<Named<'_>> {
        let Some(plan) = arguments.value("--plan") else {
            if arguments.value("--station").is_some() {
                return arguments.wrong("--station goes with --plan, which is missing");
            }
            let (table, key) = (arguments.given("--table")?, arguments.needed("--key")?);
            return Ok(Named::Written { table, key });
        };
        let mut others = ["--table", "--key"].into_iter();
        if let Some(option) = others.find(|option| arguments.value(option).is_some()) {
            return arguments.wrong(format!(
                "{option} does not go with --plan, which has the station's table and key"
            ));
        }
        let place = arguments.number("--station", "place in a plan")?;
        Ok(Named::InPlan {
            plan,
            place: place.into(),
        })
    }

    /// The station, its arrival 0 where the call does not name one. A note says what is odd about its plan.
    pub fn read(self, files: &Files, spelling: Spelling, notes: &mut Vec<String>) -> Checked<Station> {
        let (name, place) = match self {
            Named::Written { table, key } => {
                let key = read_key(files, key)?;
                return Ok(Station {
                    arrival: 0,
                    key,
                    interfaces: interfaces::table(files, table)?,
                });
            }
            Named::InPlan { plan, place } => (plan, place),
        };
        let bytes = plan::read(files, name, spelling)?;
        if path_as_plan(&bytes) {
            return mistake(format!("--plan: {} is a path by its bytes: name a plan", shown(name)));
        }
        let read = itinerary::read(&bytes);
        notes.extend(turned_down(&bytes, &read));
        let mut stations = read.stations;
        match place < stations.len() {
            true => Ok(stations.swap_remove(place)),
            false => mistake(format!(
                "--station: {} has {} and no station {place}: they are counted from 0",
                shown(name),
                counted(stations.len(), "station")
            )),
        }
    }
}

fn read_key(files: &Files, given: &str) -> Checked<ForwardingKey> {
    match given.strip_prefix('@') {
        Some(name) => key_of_file(files, OsStr::new(name)),
        None => hex::exactly(given).or_else(|why| {
            mistake(format!(
                "--key: write 32 hex digits{why}; or @ and the name of a file with the key"
            ))
        }),
    }
}

fn key_of_file(files: &Files, name: &OsStr) -> Checked<ForwardingKey> {
    let bytes = files.read(name);
    let bytes = bytes.or_else(|why| mistake(format!("--key: {}; a key itself is written without the @", why.0)))?;
    let of = format!("--key: {}", shown(name));
    match (ForwardingKey::try_from(&bytes[..]), plain_text(&bytes)) {
        // Sixteen bytes that are hex digits all of them are half a key.
        (Ok(key), _) if !hex::is_hex(without_mark(&bytes)) => Ok(key),
        (_, Some(text)) => {
            let wrong = |why| mistake(format!("{of}: write 32 hex digits{why}; 16 bytes do as well"));
            hex::exactly(text).or_else(wrong)
        }
        (_, None) => mistake(format!(
            "{of} has {} bytes: a key has 16, or 32 hex digits",
            bytes.len()
        )),
    }
}
