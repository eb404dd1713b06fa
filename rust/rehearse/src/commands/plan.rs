//! `rehearse plan`: a site plan from its text form into bytes, and back.

use super::{made_file, made_word, no_spelling, spelling, write_made};
use crate::answers;
use crate::arguments::{Arguments, Form};
use crate::files::{shown, Files, Made};
use crate::hex;
use crate::itinerary::{self, Read, MOST_STATIONS};
use crate::json::Json;
use crate::mistake::Checked;
use crate::plan;
use crate::report::{counted, Report};
use crate::seen;
use crate::write::Holds;
use standard_path::JourneyError;
use std::ffi::OsStr;

pub const FORM: Form = Form {
    command: "plan",
    places: &["TEXT"],
    values: &[
        (
            "-o",
            "a file to write the plan to, or - for hex text on standard output",
        ),
        ("--show", "a plan to show as text"),
    ],
    flags: &["--json", "--raw", "--hex"],
};

pub fn run(arguments: &Arguments, files: &Files) -> Checked<Report> {
    match (arguments.value("--show"), arguments.place(0)) {
        (Some(_), Some(_)) => arguments.wrong("--show takes the plan, and no TEXT goes with it"),
        (Some(plan), None) => show(arguments, files, plan),
        (None, _) => write(arguments, files),
    }
}

fn write(arguments: &Arguments, files: &Files) -> Checked<Report> {
    let name = arguments.file(0, "the file with the plan's text form")?;
    let file = made_file(arguments)?;
    no_spelling(arguments)?;
    let stations = plan::from_text(&files.read_text(name)?, &shown(name))?;
    let bytes = itinerary::to_bytes(&stations)?;
    let refused = turned_down(&bytes, &itinerary::read(&bytes));
    let mut report = match &refused {
        None => Report::done("plan", made_word(file), String::new()),
        Some(_) => refusal(),
    };
    report.text = format!(
        "a plan of {} in {}\n",
        counted(stations.len(), "station"),
        counted(bytes.len() / 32, "record")
    );
    report.member("stations", Json::number(stations.len()));
    report.member("fits_some_path", Json::Flag(refused.is_none()));
    if file.is_none() {
        // Keys that go to a file are not printed too.
        report.member("plan", Json::text(hex::to_hex(&bytes)));
    }
    report.notes.extend(refused);
    let made = Made {
        bytes: &bytes,
        as_hex: |bytes| hex::lines(bytes, []),
        holds: Holds::Keys,
    };
    write_made(file, files, &made, &mut report)?;
    Ok(report)
}

/// A sentence on a plan that fits no path, with what is seen in it.
pub fn turned_down(plan: &[u8], read: &Read) -> Option<String> {
    let count = read.stations.len();
    if itinerary::fits_some_path(plan, count) {
        return None;
    }
    let mut odd = Vec::new();
    match count {
        0 => odd.push("it has no station".into()),
        1..=MOST_STATIONS => {}
        _ => odd.push(format!(
            "it has {count} stations, and no path has more than {MOST_STATIONS}"
        )),
    }
    odd.extend(seen::odd_stations(&read.stations));
    odd.extend(read.remarks.iter().take(1).cloned());
    let odd = odd.join("; ");
    Some(format!("question 23 turns this plan down for every path: {odd}"))
}

/// The library's answer to a plan that fits no path.
fn refusal() -> Report {
    Report::of("plan", &answers::of_journey(Err(JourneyError::UnfitItinerary)))
}

fn show(arguments: &Arguments, files: &Files, name: &OsStr) -> Checked<Report> {
    if arguments.value("-o").is_some() {
        return arguments.wrong("--show prints the text, and takes no -o: write `> TEXT` behind the call");
    }
    let bytes = plan::read(files, name, spelling(arguments)?)?;
    let read = itinerary::read(&bytes);
    let refused = turned_down(&bytes, &read);
    let fits = refused.is_none();
    let mut remarks: Vec<String> = refused.into_iter().chain(read.remarks).collect();
    if seen::path_as_plan(&bytes) {
        remarks.insert(0, "this is a path by its bytes: `rehearse show` shows it".into());
    }
    match itinerary::to_bytes(&read.stations) {
        Ok(again) if again == bytes => {}
        Ok(_) => remarks.push("the records are laid out otherwise than `rehearse plan` lays out this text".into()),
        Err(_) => remarks.push(
            "stations share records here: `rehearse plan` does not share any, and can't write this text in 2,048 of them"
                .into(),
        ),
    }
    let mut report = match fits {
        true => Report::done("plan", "shown", String::new()),
        false => refusal(),
    };
    let comments: String = remarks.iter().map(|remark| format!("# {remark}\n")).collect();
    let text = plan::to_text(&read.stations);
    report.text = comments + &text;
    report.member("stations", Json::number(read.stations.len()));
    report.member("fits_some_path", Json::Flag(fits));
    report.member("remarks", Json::List(remarks.into_iter().map(Json::Text).collect()));
    report.member("text", Json::text(text));
    Ok(report)
}
