//! `rehearse reverse`: a path turned around.

use super::{left_file, read_path, write_left};
use crate::answers;
use crate::arguments::{Arguments, Form};
use crate::edition;
use crate::files::Files;
use crate::header::Header;
use crate::mistake::Checked;
use crate::report::Report;

pub const FORM: Form = Form {
    command: "reverse",
    places: &["PATH"],
    values: &[("--write", "a file to write the path to"), edition::OPTION],
    flags: &["--json", "--raw", "--hex"],
};

pub fn run(arguments: &Arguments, files: &Files) -> Checked<Report> {
    let file = left_file(arguments)?;
    // A path is turned around alike in each edition.
    edition::of(arguments)?;
    let before = read_path(arguments, files)?;
    let mut path = before.clone();
    let answer = answers::of_reversal(standard_path::try_reverse(&mut path));
    let mut report = Report::of("reverse", &answer);
    report.path_left(&before, &path);
    let header = Header(&path);
    if answer.is_good && (header.curr_inf(), header.curr_hf()) != (0, 0) {
        report.notes.push(format!(
            "the path stands at hop {} now: a journey back starts at hop 0, with the path turned around where it was delivered",
            header.curr_hf()
        ));
    }
    write_left(file, files, [&before, &path], &mut report)?;
    Ok(report)
}
