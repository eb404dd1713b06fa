//! The commands: one module each. Each reads its arguments, calls the library and gives a report.

mod batch;
mod demo;
mod expiration;
mod journey;
mod names;
#[cfg(test)]
mod no_key_told;
mod plan;
mod reverse;
mod show;
mod sign;
mod station;
mod step;

use crate::arguments::{Arguments, Form};
use crate::dates;
use crate::files::{shown, Files, Made, Spelling};
use crate::header::Header;
use crate::hex;
use crate::json::Json;
use crate::mistake::{mistake, Checked, Mistake};
use crate::nearest::nearest;
use crate::output::printable;
use crate::quoting::quoted;
use crate::report::Report;
use crate::seen;
use crate::sentences::{self, Question};
use crate::write::Holds;
use standard_path::ForwardingKey;
use std::ffi::{OsStr, OsString};

/// What a call writes and how it ends.
pub struct Said {
    pub out: String,
    pub err: String,
    pub status: u8,
}

struct Command {
    form: &'static Form,
    help: &'static str,
    run: Run,
}

type Run = fn(&Arguments, &Files) -> Checked<Report>;

const fn command(form: &'static Form, help: &'static str, run: Run) -> Command {
    Command { form, help, run }
}

const COMMANDS: [Command; 10] = [
    command(&demo::FORM, include_str!("../../help/demo.txt"), demo::run),
    command(&show::FORM, include_str!("../../help/show.txt"), show::run),
    command(&step::STEP, include_str!("../../help/step.txt"), step::whole),
    command(&step::INGRESS, include_str!("../../help/ingress.txt"), step::ingress),
    command(&step::EGRESS, include_str!("../../help/egress.txt"), step::egress),
    command(&journey::FORM, include_str!("../../help/journey.txt"), journey::run),
    command(&reverse::FORM, include_str!("../../help/reverse.txt"), reverse::run),
    command(
        &expiration::FORM,
        include_str!("../../help/expiration.txt"),
        expiration::run,
    ),
    command(&plan::FORM, include_str!("../../help/plan.txt"), plan::run),
    command(&sign::FORM, include_str!("../../help/sign.txt"), sign::run),
];

const HELP: &str = include_str!("../../help/rehearse.txt");

/// Runs one call.
pub fn run(words: &[OsString], files: &Files) -> Said {
    let mut options = words.iter().take_while(|word| *word != "--");
    let as_json = options.any(|word| word == "--json");
    let Some(first) = words.first() else {
        let sentence = "say what to do, as `rehearse demo`: see `rehearse --help`";
        return wrong(None, &Mistake::new(sentence), as_json);
    };
    let name = match first.to_str() {
        Some("--help" | "-h") => return said(HELP),
        Some("--version" | "-V") => return said(concat!("rehearse ", env!("CARGO_PKG_VERSION"), "\n")),
        Some("help") if words.len() == 1 || words[1] == "help" => return said(HELP),
        Some("help") => &words[1],
        _ => first,
    };
    if let Some(said) = name.to_str().filter(|_| first == "help").and_then(about_number) {
        return said;
    }
    let Some(command) = COMMANDS.iter().find(|command| name == command.form.command) else {
        let word = name.to_string_lossy();
        let meant = nearest(&word, COMMANDS.iter().map(|command| command.form.command));
        let meant = meant.map_or(String::new(), |name| format!(", but {name} is"));
        let word = quoted(&word);
        let sentence = format!("{word} is not a command of rehearse{meant}: see `rehearse --help`");
        return wrong(None, &Mistake::new(sentence), as_json);
    };
    let words = &words[1..];
    let mut options = words.iter().take_while(|word| *word != "--");
    if first == "help" || options.any(|word| word == "--help" || word == "-h") {
        return said(command.help);
    }
    match Arguments::read(command.form, words).and_then(|arguments| (command.run)(&arguments, files)) {
        Ok(report) => finished(command.form.command, report, as_json),
        Err(mistake) => wrong(Some(command.form.command), &mistake, as_json),
    }
}

/// What the number of a refusal means.
fn about_number(word: &str) -> Option<Said> {
    let number = word.parse().ok().filter(|_| !word.starts_with('+'))?;
    let mut text = String::new();
    for Question { asked, no, advice } in sentences::all_of(number) {
        text += &format!("{:<12} {asked} No. {no}\n", format!("question {number}"));
        text += &format!("what to do   {advice}\n");
    }
    (!text.is_empty()).then(|| said(&text))
}

fn said(text: &str) -> Said {
    Said {
        out: text.into(),
        err: String::new(),
        status: 0,
    }
}

fn finished(command: &str, report: Report, as_json: bool) -> Said {
    let Report {
        text,
        mut json,
        notes,
        status,
    } = report;
    if as_json {
        json.push(("notes", Json::List(notes.into_iter().map(Json::Text).collect())));
        return Said {
            out: format!("{}\n", names::object(Some(command), json)),
            err: String::new(),
            status,
        };
    }
    let err = notes
        .iter()
        .map(|note| format!("rehearse: {}\n", printable(note)))
        .collect();
    Said { out: text, err, status }
}

/// A mistake in the call: a sentence on standard error, with `--json` an object as well.
fn wrong(command: Option<&'static str>, mistake: &Mistake, as_json: bool) -> Said {
    let object = || format!("{}\n", names::object(command, mistake.json(command)));
    Said {
        out: if as_json { object() } else { String::new() },
        err: format!("rehearse: {}\n", printable(&mistake.0)),
        status: 2,
    }
}

// ---- what several commands do

fn spelling(arguments: &Arguments) -> Checked<Spelling> {
    match (arguments.flag("--raw"), arguments.flag("--hex")) {
        (true, true) => arguments.wrong("--raw and --hex do not go together"),
        (true, false) => Ok(Spelling::Raw),
        (false, true) => Ok(Spelling::Hex),
        (false, false) => Ok(Spelling::ByContent),
    }
}

/// A mistake where there is nothing that could be raw or hex.
fn no_spelling(arguments: &Arguments) -> Checked<Spelling> {
    match spelling(arguments)? {
        Spelling::ByContent => Ok(Spelling::ByContent),
        _ => arguments.wrong(
            "--raw and --hex say how bytes are read, and this call reads a text; a file to write gets hex text if its name \
             ends in .hex",
        ),
    }
}

const PATH: &str = "the file with the path header";

/// A path whose bytes are to be shown.
fn read_path(arguments: &Arguments, files: &Files) -> Checked<Vec<u8>> {
    path_to_show(files, arguments.file(0, PATH)?, spelling(arguments)?)
}

/// The same by its file's name. A key in its place would be shown with it, and is a mistake.
fn path_to_show(files: &Files, name: &OsStr, spelling: Spelling) -> Checked<Vec<u8>> {
    let path = path_to_ask(files, name, spelling)?;
    let why = "has 16 bytes, as a key has: a path with a hop has 24 or more";
    none_of_these(is_key_size(&path), why, name, spelling)?;
    Ok(path)
}

/// A path that the library is asked about. A plan in its place is a mistake: what is said of it comes from its keys.
fn path_to_ask(files: &Files, name: &OsStr, spelling: Spelling) -> Checked<Vec<u8>> {
    let path = files.read_path(name, spelling)?;
    let why = "is a plan by its bytes: `rehearse plan --show` shows it";
    none_of_these(seen::plan_as_path(&path), why, name, spelling)?;
    Ok(path)
}

/// What is no path by its looks is a mistake, unless the call says that the bytes are a path's.
fn none_of_these(is_one: bool, why: &str, name: &OsStr, spelling: Spelling) -> Checked<()> {
    match spelling {
        Spelling::ByContent if is_one => mistake(format!(
            "{} {why} (--raw and --hex take it as a path all the same)",
            shown(name)
        )),
        _ => Ok(()),
    }
}

/// A path as long as a key, and too short for the hops that it names.
fn is_key_size(path: &[u8]) -> bool {
    path.len() == size_of::<ForwardingKey>() && Header(path).hops() > 0
}

/// The reading of a clock, and a note if it may have been meant otherwise.
fn reading(arguments: &Arguments, name: &str, notes: &mut Vec<String>) -> Checked<u32> {
    let text = arguments.needed(name)?;
    let seconds = dates::time(text, name)?;
    notes.extend(dates::note(text, name));
    Ok(seconds)
}

/// Where the path that a call left is to be written. As everything in the words of a call, it is asked before a file is
/// read: standard input may be a person.
fn left_file(arguments: &Arguments) -> Checked<Option<&OsStr>> {
    match arguments.value("--write") {
        Some(name) if name == "-" => arguments.wrong("--write takes a file; the header that is left is printed anyway"),
        name => Ok(name),
    }
}

/// Writes the path that a call left. What was read as a path may be a plan, whose keys are in what is left too.
fn write_left(file: Option<&OsStr>, files: &Files, [read, left]: [&[u8]; 2], report: &mut Report) -> Checked<()> {
    if file.is_none() {
        return Ok(());
    }
    let holds = match seen::plan_as_path(read) {
        true => Holds::Keys,
        false => Holds::NoKeys,
    };
    let made = Made {
        bytes: left,
        as_hex: path_lines,
        holds,
    };
    write_made(file, files, &made, report)
}

/// A path as hex text, a line for each of its fields.
fn path_lines(path: &[u8]) -> String {
    hex::lines(path, Header(path).sizes())
}

/// Where a command that makes a file writes it: a file, `-` for hex text on standard output, or nowhere with `--json`.
fn made_file(arguments: &Arguments) -> Checked<Option<&OsStr>> {
    let as_json = arguments.flag("--json");
    match arguments.value("-o") {
        None if as_json => Ok(None),
        Some(name) if name == "-" && as_json => arguments.wrong("--json has the bytes in its object: leave out `-o -`"),
        _ => arguments.given("-o").map(Some),
    }
}

/// What is said of it in JSON.
fn made_word(file: Option<&OsStr>) -> &'static str {
    match file {
        Some(_) => "written",
        None => "made",
    }
}

fn write_made(file: Option<&OsStr>, files: &Files, made: &Made<'_>, report: &mut Report) -> Checked<()> {
    match file {
        None => {}
        Some(name) if name == "-" => report.text = (made.as_hex)(made.bytes),
        Some(name) => {
            files.write(name, made)?;
            report.written(name);
        }
    }
    Ok(())
}
