//! `rehearse journey --batch`: many journeys, a line for each, and a summary.

use super::journey::{between, check, Between, Checking};
use super::names;
use crate::answers::Answer;
use crate::arguments::Arguments;
use crate::edition;
use crate::files::{shown, without_mark, Files};
use crate::json::Json;
use crate::mistake::{mistake, Checked, Mistake};
use crate::output::{printable, shortened, Lines};
use crate::quoting::may_hold_key;
use crate::report::{counted, Report};
use std::collections::BTreeMap;
use std::ffi::OsStr;
use std::path::Path;

/// The most bytes of a line with two names. A list can be one line of many MiB.
const LONGEST: usize = 65_536;

/// A line of the list.
struct Entry<'a> {
    line: usize,
    /// Its text without a comment, or none if it is no text.
    said: Option<&'a str>,
}

#[derive(Default)]
struct Summary {
    passed: u64,
    not_passed: u64,
    refused: BTreeMap<u16, u64>,
    not_read: u64,
}

pub fn run(arguments: &Arguments, files: &Files) -> Checked<Report> {
    if let Some(word) = arguments.place(0) {
        return arguments.wrong(format!(
            "{} does not go with --batch, which reads paths and plans from its list",
            shown(word)
        ));
    }
    let between = between(arguments)?;
    let name = arguments.value("--batch").unwrap_or_default();
    let (list, of) = (files.read(name)?, shown(name));
    let count = entries(&list).count();
    if count == 0 {
        return mistake(format!("{of} names no journey: write a path and a plan on each line"));
    }
    let mut lines = Lines::of(count);
    let mut summary = Summary::default();
    // Without a reader the journeys are checked all the same: the status is that of all of them.
    for (at, entry) in entries(&list).enumerate() {
        let place = format!("{of}, line {}", entry.line);
        let line = one(
            files,
            (&entry, &place),
            &between,
            arguments.flag("--json"),
            &mut summary,
        );
        lines.print(&line, at + 1)?;
    }
    lines.finish()?;
    let mut report = summary.report(count);
    edition::tell(between.edition, &mut report);
    report.notes = between.notes;
    Ok(report)
}

/// The list's lines that name a journey, or should.
fn entries<'a>(list: &'a [u8]) -> impl Iterator<Item = Entry<'a>> {
    let lines = without_mark(list).split(|&byte| byte == b'\n').enumerate();
    lines.filter_map(|(at, line)| {
        let said = std::str::from_utf8(line).map(without_comment);
        let is_comment = said == Ok("") || said.is_err() && line.trim_ascii_start().starts_with(b"#");
        (!is_comment).then_some(Entry {
            line: at + 1,
            said: said.ok(),
        })
    })
}

impl<'a> Entry<'a> {
    /// A path and a plan, between them white space, or a tab where a name has spaces.
    fn names(&self) -> Checked<[&'a str; 2]> {
        let is_control = |letter: char| letter.is_control() && letter != '\t';
        match self.said {
            None => mistake("there is a byte in this line that is no text: write the names in UTF-8"),
            Some(said) if said.len() > LONGEST => {
                mistake("this line is longer than two names can be: write a path and a plan")
            }
            Some(said) if said.contains(is_control) => {
                mistake("there is a control character in this line: write a path and a plan")
            }
            Some(said) => two_names(said),
        }
    }
}

/// A line up to a # that starts a word.
fn without_comment(line: &str) -> &str {
    let starts_word = |&(at, _): &(usize, &str)| line[..at].chars().next_back().is_none_or(char::is_whitespace);
    let comment = line.match_indices('#').find(starts_word);
    comment.map_or(line, |(at, _)| &line[..at]).trim()
}

fn two_names(said: &str) -> Checked<[&str; 2]> {
    let words: Vec<&str> = match said.contains('\t') {
        true => said
            .split('\t')
            .map(str::trim)
            .filter(|word| !word.is_empty())
            .collect(),
        false => said.split_whitespace().collect(),
    };
    words
        .try_into()
        .or_else(|_| mistake("write a path and a plan, with a space between them, or a tab if a name has spaces"))
}

/// Whether a line's names can be shown. The list may be a plan by mistake, and a name without a file a key.
fn can_be_shown(names: [&str; 2]) -> bool {
    let is_there = |name: &&str| *name == "-" || Path::new(name).exists();
    names.iter().all(is_there) || !may_hold_key(&names.join(" "))
}

/// Checks the journey of one line, and gives what is printed of it. `place` is where the line is.
fn one(
    files: &Files,
    (entry, place): (&Entry<'_>, &str),
    between: &Between,
    as_json: bool,
    summary: &mut Summary,
) -> String {
    let names = entry.names();
    let shown = names.as_ref().ok().filter(|names| can_be_shown(**names)).copied();
    let checking = names.and_then(|names| {
        let [path, plan] = names.map(OsStr::new);
        check(files, path, plan, between)
    });
    let (label, why, mut json) = match checking {
        Ok(Checking { answer, report, why }) => (summary.count(&answer), why, report.json),
        Err(Mistake(why)) => {
            summary.not_read += 1;
            let sentence = shown.map_or_else(|| format!("{place}: {why}"), |_| why.clone());
            let json = Mistake::new(sentence).json(Some("journey"));
            ("not read".into(), Some(why), json)
        }
    };
    if as_json {
        let name = |at: usize| shown.map_or(Json::Null, |names| Json::text(names[at]));
        json.push(("line", Json::number(entry.line)));
        json.push(("path_file", name(0)));
        json.push(("plan_file", name(1)));
        return format!("{}\n", names::object(Some("journey"), json));
    }
    let said = shown.map_or_else(|| place.into(), |names| shortened(&names.join(" ")));
    let said: Vec<String> = std::iter::once(said).chain(why).collect();
    format!("{label:<11} {}\n", printable(&said.join(": ")))
}

impl Summary {
    /// Counts an answer, and gives its word for a line.
    fn count(&mut self, answer: &Answer) -> String {
        match answer.word {
            "passed" => self.passed += 1,
            "not_passed" => self.not_passed += 1,
            word => {
                *self.refused.entry(answer.number).or_default() += 1;
                return format!("{word} {}", answer.number);
            }
        }
        answer.word.replace('_', " ")
    }

    fn report(&self, journeys: usize) -> Report {
        let refused: u64 = self.refused.values().sum();
        let numbers: Vec<String> = self
            .refused
            .iter()
            .map(|(number, count)| format!("{count} by {number}"))
            .collect();
        let by = if refused == 0 {
            String::new()
        } else {
            format!(" ({})", numbers.join(", "))
        };
        let text = format!(
            "{}: {} passed, {} not passed, {refused} refused{by}, {} not read\n",
            counted(journeys, "journey"),
            self.passed,
            self.not_passed,
            self.not_read
        );
        let mut report = Report::done("journey", "summary", text);
        let by_number = self.refused.iter().map(|(&number, &count)| {
            Json::Object(vec![("number", Json::number(number)), ("count", Json::Number(count))])
        });
        report.member("journeys", Json::number(journeys));
        report.member("passed", Json::Number(self.passed));
        report.member("not_passed", Json::Number(self.not_passed));
        report.member("refused", Json::Number(refused));
        report.member("refused_by", Json::List(by_number.collect()));
        report.member("not_read", Json::Number(self.not_read));
        report.status = match (self.not_read, self.not_passed + refused) {
            (0, 0) => 0,
            (0, _) => 1,
            _ => 2,
        };
        report
    }
}
