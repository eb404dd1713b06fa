//! `rehearse demo`: the example site of the repository, run and explained.

use super::Said;
use crate::arguments::{Arguments, Form};
use crate::files::{shown, Files, Made};
use crate::hex;
use crate::json::Json;
use crate::mistake::{mistake, Checked};
use crate::output::printable;
use crate::report::Report;
use crate::write::{self, Holds};
use std::ffi::{OsStr, OsString};
use std::path::Path;
use std::{fs, io};

pub const FORM: Form = Form {
    command: "demo",
    places: &[],
    values: &[("--write", "a folder to write the example's files to")],
    flags: &["--json"],
};

/// The files of examples/site.
const FILES: [(&str, &str); 5] = [
    ("plan.txt", include_str!("../../../../examples/site/plan.txt")),
    ("good.txt", include_str!("../../../../examples/site/good.txt")),
    ("late.txt", include_str!("../../../../examples/site/late.txt")),
    (
        "peering-plan.txt",
        include_str!("../../../../examples/site/peering-plan.txt"),
    ),
    ("peering.txt", include_str!("../../../../examples/site/peering.txt")),
];

const PLAN: &str = "plan plan.txt -o site.plan";
const GOOD: &str = "sign good.txt --plan site.plan -o good.path";
const LATE: &str = "sign late.txt --plan site.plan -o late.path";
const PEERING: &str = "sign peering.txt --plan peering-plan.txt --edition 2 -o peering.path";

/// The other files of the example, and the calls that make them.
const MADE: [(&str, &str); 4] = [
    ("site.plan", PLAN),
    ("good.path", GOOD),
    ("late.path", LATE),
    ("peering.path", PEERING),
];

/// What is said, and the call behind it.
const STEPS: [(&str, &str); 10] = [
    (
        "The plan in plan.txt becomes bytes, as the journey check reads them.",
        PLAN,
    ),
    (
        "The path in good.txt becomes a header. Its MACs are worked out under the keys of the plan.",
        GOOD,
    ),
    (
        "This is the header. Hop 1 and hop 2 belong to the core: there the path changes from one segment to the next.",
        "show good.path",
    ),
    (
        "Does it travel, whatever the stations' clocks read between five past six and eleven? It does.",
        "journey good.path site.plan --earliest 2026-11-16T06:05:00Z --latest 2026-11-16T11:00:00Z",
    ),
    (
        "The path in late.txt goes the same way, but the hop of the switch room lasts an hour only.",
        LATE,
    ),
    (
        "It does not pass: at eleven the switch room turns it down.",
        "journey late.path site.plan --earliest 2026-11-16T06:05:00Z --latest 2026-11-16T11:00:00Z",
    ),
    (
        "One station alone: hall A gets the good path from its own hosts (interface 0) and sends it on.",
        "step good.path --plan site.plan --station 0 --now 2026-11-16T06:05:00Z",
    ),
    (
        "The same at one in the afternoon, an hour after the hop has ended.",
        "step good.path --plan site.plan --station 0 --now 2026-11-16T13:00:00Z",
    ),
    (
        "Hall B and the haulier next door are joined by a peering link. The path in peering.txt goes over it, and\n\
         peering-plan.txt has the stations of both operators. Edition 2 of the rules knows such a path.",
        PEERING,
    ),
    (
        "It travels too. Each of its four hops has a station of its own.",
        "journey peering.path peering-plan.txt --edition 2 --earliest 2026-11-16T06:05:00Z --latest 2026-11-16T11:00:00Z",
    ),
];

pub fn run(arguments: &Arguments, _files: &Files) -> Checked<Report> {
    match arguments.value("--write") {
        Some(folder) => write_site(folder),
        None => Ok(show()),
    }
}

fn show() -> Report {
    let files = site();
    let mut text = String::from(
        "A cold store with two halls: hall A sends orders over the core of the site to the shuttle desk of hall B.\n\n\
         This is its plan, plan.txt: four stations, each with the interface that a packet arrives by, its key and its\n\
         interfaces.\n\n",
    );
    text += &indented(FILES[0].1);
    text += "\nAnd this is a path over it, good.txt: five hops in two segments.\n\n";
    text += &indented(FILES[1].1);
    let mut steps = Vec::new();
    for (said, call) in STEPS {
        let answer = typed(call, &files);
        text += &format!(
            "\n{said}\n\n    $ rehearse {call}\n{}{}",
            indented(&answer.out),
            indented(&answer.err)
        );
        steps.push(Json::Object(vec![
            ("call", Json::text(format!("rehearse {call}"))),
            ("status", Json::number(answer.status)),
            ("text", Json::text(answer.out)),
        ]));
    }
    text +=
        "\nTo try it yourself: `rehearse demo --write site` writes these files into a folder, and the calls above\n\
             run there. docs/GUIDE.md goes on from here.\n";
    let mut report = Report::done("demo", "shown", text);
    report.member("steps", Json::List(steps));
    report
}

/// The example's texts, in memory.
fn site() -> Files {
    let files = Files::in_memory();
    for (name, content) in FILES {
        let made = Made {
            bytes: content.as_bytes(),
            as_hex: hex::to_hex,
            holds: holds(name),
        };
        // The memory takes every file.
        let _ = files.write(OsStr::new(name), &made);
    }
    files
}

fn holds(name: &str) -> Holds {
    match name {
        "plan.txt" | "site.plan" | "peering-plan.txt" => Holds::Keys,
        _ => Holds::NoKeys,
    }
}

fn typed(call: &str, files: &Files) -> Said {
    let words: Vec<OsString> = call.split(' ').map(OsString::from).collect();
    super::run(&words, files)
}

/// All files of the example: the texts, and what is made of them.
fn all_files() -> Checked<Vec<(&'static str, Vec<u8>)>> {
    let files = site();
    let texts = FILES.map(|(name, content)| (name, content.as_bytes().to_vec()));
    let mut all = Vec::from(texts);
    for (name, call) in MADE {
        typed(call, &files);
        all.push((name, files.read(OsStr::new(name))?));
    }
    Ok(all)
}

fn indented(text: &str) -> String {
    let line = |line: &str| {
        if line.is_empty() {
            "\n".into()
        } else {
            format!("    {line}\n")
        }
    };
    text.lines().map(line).collect()
}

fn write_site(name: &OsStr) -> Checked<Report> {
    if name.is_empty() || name == "-" {
        return mistake("--write takes a folder: name one, as `rehearse demo --write site`");
    }
    let files = all_files()?;
    write_all(Path::new(name), &files)?;
    let names: Vec<&str> = files.iter().map(|&(name, _)| name).collect();
    let text = format!(
        "{} written to {}\n",
        names.join(", "),
        printable(&name.to_string_lossy())
    );
    let mut report = Report::done("demo", "written", text);
    report.member("files", Json::List(names.into_iter().map(Json::text).collect()));
    Ok(report)
}

/// Writes what is not there yet. Nothing is written where something of another's stands in the way.
fn write_all(folder: &Path, files: &[(&str, Vec<u8>)]) -> Checked<()> {
    if let Err(error) = fs::create_dir_all(folder) {
        return mistake(format!(
            "{} can't be made ({error}): name another folder",
            shown(folder.as_os_str())
        ));
    }
    let mut missing = Vec::new();
    for (name, content) in files {
        if !is_there(&folder.join(name), content)? {
            missing.push((name, content));
        }
    }
    let mut missing = missing.into_iter();
    missing.try_for_each(|(name, content)| write::whole(&folder.join(name), content, holds(name)))
}

/// Whether a file of the example is there.
fn is_there(name: &Path, content: &[u8]) -> Checked<bool> {
    let is_example = |about: &fs::Metadata| {
        let may_be = about.is_file() && about.len() == content.len() as u64;
        may_be && fs::read(name).is_ok_and(|there| there == content)
    };
    match fs::metadata(name) {
        Err(error) if error.kind() == io::ErrorKind::NotFound => Ok(false),
        Ok(about) if is_example(&about) => Ok(true),
        _ => mistake(format!(
            "{} is there already and is not the example's: name another folder",
            shown(name.as_os_str())
        )),
    }
}
