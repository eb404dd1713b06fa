//! `rehearse journey`: does a path travel over the stations of a plan?

use super::{batch, reading, spelling, PATH};
use crate::answers::{self, Answer};
use crate::arguments::{Arguments, Form};
use crate::dates;
use crate::drive;
use crate::edition;
use crate::files::{Files, Spelling};
use crate::header::Header;
use crate::itinerary::{self, Read};
use crate::json::Json;
use crate::mistake::Checked;
use crate::not_asked;
use crate::plan;
use crate::report::{counted, Report};
use crate::seen;
use standard_path::{Edition, ScionNetworkTime, Verdict};
use std::ffi::OsStr;

pub const FORM: Form = Form {
    command: "journey",
    places: &["PATH", "PLAN"],
    values: &[
        ("--earliest", "the earliest reading of a clock: seconds or a date"),
        ("--latest", "the latest reading of a clock: seconds or a date"),
        ("--batch", "a file with a path and a plan on each line"),
        edition::OPTION,
    ],
    flags: &["--json", "--raw", "--hex"],
};

/// The edition and the two readings, and how files are read.
pub struct Between {
    pub edition: Edition,
    pub earliest: u32,
    pub latest: u32,
    pub spelling: Spelling,
    /// What is odd about the readings.
    pub notes: Vec<String>,
}

pub fn run(arguments: &Arguments, files: &Files) -> Checked<Report> {
    if arguments.value("--batch").is_some() {
        return batch::run(arguments, files);
    }
    let path = arguments.file(0, PATH)?;
    let plan = arguments.file(1, "the file with the plan, as bytes, as hex or in its text form")?;
    let between = between(arguments)?;
    let mut report = check(files, path, plan, &between)?.report;
    report.notes = between.notes;
    Ok(report)
}

pub fn between(arguments: &Arguments) -> Checked<Between> {
    let mut notes = Vec::new();
    Ok(Between {
        edition: edition::of(arguments)?,
        earliest: reading(arguments, "--earliest", &mut notes)?,
        latest: reading(arguments, "--latest", &mut notes)?,
        spelling: spelling(arguments)?,
        notes,
    })
}

/// The library's answer, and all that there is to say of it.
pub struct Checking {
    pub answer: Answer,
    pub report: Report,
    /// The first thing to look at, in a sentence.
    pub why: Option<String>,
}

/// Checks one path over one plan.
pub fn check(files: &Files, path: &OsStr, plan: &OsStr, between: &Between) -> Checked<Checking> {
    let path = files.read_path(path, between.spelling)?;
    let plan = plan::read(files, plan, between.spelling)?;
    let (edition, readings) = (between.edition, [between.earliest, between.latest]);
    let [earliest, latest] = readings.map(ScionNetworkTime::from_timestamp_secs);
    let verdict = edition.check_journey(&path, &plan, earliest, latest);
    let answer = answers::of_journey(verdict).of_check(edition, &path);

    let mut report = Report::headed("journey", &answer);
    let read = itinerary::read(&plan);
    asked(&path, &read, readings, &mut report);
    edition::tell(edition, &mut report);
    let why = match verdict {
        Ok(Verdict::Passed) => {
            let seen = not_asked::beside_pass(edition, Header(&path), &read.stations);
            let more = match seen.len() {
                0 | 1 => String::new(),
                count => format!(" (and {} more)", count - 1),
            };
            let first = report.list("not asked", "not_asked", seen);
            first.map(|first| format!("not asked: {first}{more}"))
        }
        Ok(Verdict::NotPassed { .. }) => where_it_stops((edition, &path), &read.stations, readings, &mut report),
        Err(error) => {
            let seen = seen::beside((error, edition), &path, (&plan, &read), readings);
            report.list("seen", "seen", seen).or(Some(answer.sentence.clone()))
        }
    };
    report.lines(&answer.details());
    Ok(Checking { answer, report, why })
}

/// What the library was asked about.
fn asked(path: &[u8], read: &Read, [earliest, latest]: [u32; 2], report: &mut Report) {
    let header = Header(path);
    let (hops, infos, stations) = (header.hops(), header.infos(), read.stations.len());
    let size = match path.len() {
        0..=3 => counted(path.len(), "byte"),
        _ => format!("{}, {}", counted(hops, "hop"), counted(infos, "info field")),
    };
    report.line("path", size);
    report.line("plan", counted(stations, "station"));
    report.line(
        "readings",
        format!("from {} to {}", dates::both(earliest), dates::both(latest)),
    );
    for (name, value) in [("hops", hops), ("infos", infos), ("stations", stations)] {
        report.member(name, Json::number(value));
    }
    report.member("earliest", Json::number(earliest));
    report.member("latest", Json::number(latest));
}

/// Drives the path with every clock at the earliest reading, then at the latest, until a station holds it. Gives that in a
/// sentence.
fn where_it_stops(
    (edition, path): (Edition, &[u8]),
    stations: &[plan::Station],
    readings: [u32; 2],
    report: &mut Report,
) -> Option<String> {
    for reading in readings {
        let Some(drive::Stop { station, answer }) = drive::stop(edition, path, stations, reading) else {
            report.line("arrives", format!("with every clock at {}", dates::both(reading)));
            continue;
        };
        report.line(
            "stops",
            format!(
                "at station {station} (arrival {}), with every clock at {}",
                stations[station].arrival,
                dates::both(reading)
            ),
        );
        report.line("", answer.headline());
        report.lines(&answer.about());
        report.member(
            "stops",
            stop_json((station, stations[station].arrival), reading, &answer),
        );
        return Some(format!(
            "station {station}, number {}: {}",
            answer.number, answer.sentence
        ));
    }
    None
}

fn stop_json((station, arrival): (usize, u16), reading: u32, answer: &Answer) -> Json {
    let mut members = vec![
        ("station", Json::number(station)),
        ("arrival", Json::number(arrival)),
        ("reading", Json::number(reading)),
    ];
    members.extend(answer.json("step").into_iter().filter(|(name, _)| *name != "command"));
    members.push(("named_hops", answer.hops_json()));
    Json::Object(members)
}
