//! `rehearse sign`: a path header from its text form, its MACs worked out, and back.

use super::plan::turned_down;
use super::{made_file, made_word, no_spelling, path_lines, path_to_show, spelling, write_made};
use crate::answers::{self, Answer};
use crate::arguments::{Arguments, Form};
use crate::dates;
use crate::edition;
use crate::files::{shown, Files, Made};
use crate::header::Header;
use crate::hex;
use crate::itinerary::{self, Read};
use crate::json::Json;
use crate::mistake::{mistake, Checked};
use crate::path_text::{self, MOST_BEHIND};
use crate::report::{counted, Report};
use crate::signing::{self, Signed};
use crate::write::Holds;
use crate::{path_words, plan};
use standard_path::{expiration, Edition, HeaderError};
use std::ffi::OsStr;

pub const FORM: Form = Form {
    command: "sign",
    places: &["TEXT"],
    values: &[
        ("--plan", "the plan whose keys sign the hops"),
        (
            "-o",
            "a file to write the path to, or - for hex text on standard output",
        ),
        ("--show", "a path to show as text"),
        edition::OPTION,
    ],
    flags: &["--json", "--raw", "--hex"],
};

pub fn run(arguments: &Arguments, files: &Files) -> Checked<Report> {
    match (arguments.value("--show"), arguments.place(0)) {
        (Some(_), Some(_)) => arguments.wrong("--show takes the path, and no TEXT goes with it"),
        (Some(path), None) => show(arguments, files, path),
        (None, _) => write(arguments, files),
    }
}

fn write(arguments: &Arguments, files: &Files) -> Checked<Report> {
    let name = arguments.file(0, "the file with the path's text form")?;
    let file = made_file(arguments)?;
    let edition = edition::of(arguments)?;
    let plan_name = arguments.value("--plan");
    let spelling = match plan_name {
        None => no_spelling(arguments)?,
        Some(_) => spelling(arguments)?,
    };
    let text = path_text::from_text(&files.read_text(name)?, &shown(name))?;
    let plan = match plan_name {
        None => None,
        Some(name) => Some(plan::read(files, name, spelling)?),
    };
    let read = plan.as_deref().map(itinerary::read);
    let stations = read.iter().flat_map(|read| &read.stations);
    let keys: Vec<_> = stations.map(|station| station.key).collect();
    let signed = signing::sign(&text, &keys, edition)?;
    let mut report = told(edition, &signed, made_word(file));
    report
        .notes
        .extend(text.segments.into_iter().flatten().filter_map(|segment| segment.note));
    if let (Some(plan), Some(read)) = (&plan, &read) {
        report.notes.extend(about_plan(edition, &signed, plan, read));
    }
    if let Some(note) = without_key(&signed, read.map(|read| read.stations.len())) {
        report.notes.push(note);
        report.status = 1;
    }
    let made = Made {
        bytes: &signed.bytes,
        as_hex: path_lines,
        holds: Holds::NoKeys,
    };
    write_made(file, files, &made, &mut report)?;
    Ok(report)
}

/// What was made.
fn told(edition: Edition, signed: &Signed, word: &'static str) -> Report {
    let header = Header(&signed.bytes);
    let ends = expiration(&signed.bytes);
    let refused = answers::of_header(&signed.bytes, edition);
    let mut report = match &refused {
        None => Report::done("sign", word, String::new()),
        Some(answer) => Report::of("sign", answer),
    };
    report.text = made(header, signed);
    if let Ok(time @ 1..) = ends {
        report.line("expires", dates::both(time));
    }
    edition::tell(edition, &mut report);
    report.member("hops", Json::number(header.hops()));
    report.member("infos", Json::number(header.infos()));
    report.member("macs_worked_out", Json::number(signed.worked_out));
    report.member("expiration", ends.map_or(Json::Null, Json::number));
    report.member("path", Json::text(hex::to_hex(&signed.bytes)));
    let turned_down = |answer: Answer| format!("the library turns this header down: {}", answer.headline());
    report.notes.extend(refused.map(turned_down));
    report.notes.extend(gap(header));
    if header.curr_hf() != 0 {
        report.notes.push(format!(
            "curr_hf is {}, but a path is signed as its source sends it: for a path that travels leave it at 0, and `rehearse \
             step --write` moves it on",
            header.curr_hf()
        ));
    }
    if header.hops() == 0 {
        let note = "the text has no hop: the header is the 4 bytes of a meta word";
        report.notes.push(note.into());
    }
    report
}

fn made(header: Header<'_>, signed: &Signed) -> String {
    let (hops, segments) = (header.hops(), counted(header.infos(), "segment"));
    let macs = counted(signed.worked_out, "MAC");
    let kept = match hops - signed.worked_out - signed.unsigned.len() {
        0 => String::new(),
        kept => format!(", {kept} as in the text"),
    };
    format!(
        "a path of {} in {segments}, {macs} worked out{kept}\n",
        counted(hops, "hop")
    )
}

/// A note on info fields that are written without gaps and looked for with them.
fn gap(header: Header<'_>) -> Option<String> {
    let note =
        "a segment stands behind an empty one: the step looks for info fields by CurrINF, where another stands or none";
    header.has_gap().then(|| note.into())
}

/// What is odd about the plan that was given.
fn about_plan(edition: Edition, signed: &Signed, plan: &[u8], read: &Read) -> Vec<String> {
    let (header, stations) = (Header(&signed.bytes), &read.stations);
    let mut notes: Vec<String> = turned_down(plan, read).into_iter().collect();
    let asked = header.stations(edition);
    if stations.len() != asked {
        let (count, rule) = (counted(stations.len(), "station"), header.stations_rule(edition));
        notes.push(format!("the plan has {count}, and this path asks for {asked} ({rule})"));
    }
    if header.hops() > 0 && signed.worked_out == 0 && signed.unsigned.is_empty() {
        notes.push("--plan had no effect: each hop has a `mac` of its own".into());
    }
    notes
}

/// A note on the hops that could not be signed.
fn without_key(signed: &Signed, stations: Option<usize>) -> Option<String> {
    let &(first, station) = signed.unsigned.first()?;
    let hops: Vec<String> = signed.unsigned.iter().map(|(hop, _)| hop.to_string()).collect();
    let why = match stations {
        None => "no plan was given (--plan)".into(),
        Some(stations) => format!(
            "the plan has {}, and hop {first} is for station {station}, counted from 0",
            counted(stations, "station")
        ),
    };
    let hops = match hops.len() {
        1 => format!("hop {} has no key, so that its MAC is", hops[0]),
        _ => format!("hops {} have no key, so that their MACs are", hops.join(", ")),
    };
    Some(format!("{hops} zeros: {why}"))
}

fn show(arguments: &Arguments, files: &Files, name: &OsStr) -> Checked<Report> {
    for (option, instead) in [("-o", "write `> TEXT` behind the call"), ("--plan", "leave it out")] {
        if arguments.value(option).is_some() {
            return arguments.wrong(format!("--show prints the text, and takes no {option}: {instead}"));
        }
    }
    // The text form is the same in each edition.
    edition::of(arguments)?;
    let path = path_to_show(files, name, spelling(arguments)?)?;
    let behind = Header(&path).parts().1.len();
    let is_too_long = behind > MOST_BEHIND;
    let answer = match expiration(&path) {
        Err(error) if is_too_long || error != HeaderError::TooManyHops => {
            return Ok(Report::of("sign", &answers::of_header_error(error)));
        }
        answer => answer.err().map(answers::of_header_error),
    };
    if is_too_long {
        return mistake(format!(
            "{} has {behind} bytes behind its header, and the text form takes 1,048,576: cut the file to {} bytes",
            shown(name),
            Header(&path).size()
        ));
    }
    let text = path_words::to_text(&path);
    let mut report = match &answer {
        None => Report::done("sign", "shown", text.clone()),
        Some(answer) => Report {
            text: format!("# {}\n{text}", answer.headline()),
            ..Report::of("sign", answer)
        },
    };
    report.member("hops", Json::number(Header(&path).hops()));
    report.member("infos", Json::number(Header(&path).infos()));
    report.member("text", Json::text(text));
    report.notes.extend(gap(Header(&path)));
    Ok(report)
}
