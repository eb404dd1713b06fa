//! `rehearse expiration`: when a path ends.

use super::{path_to_ask, spelling, PATH};
use crate::answers;
use crate::arguments::{Arguments, Form};
use crate::edition;
use crate::files::Files;
use crate::header::Header;
use crate::mistake::Checked;
use crate::report::Report;

pub const FORM: Form = Form {
    command: "expiration",
    places: &["PATH"],
    values: &[edition::OPTION],
    flags: &["--json", "--raw", "--hex"],
};

pub fn run(arguments: &Arguments, files: &Files) -> Checked<Report> {
    // A path ends at the same time in each edition.
    edition::of(arguments)?;
    let path = path_to_ask(files, arguments.file(0, PATH)?, spelling(arguments)?)?;
    let answer = answers::of_expiration(standard_path::expiration(&path));
    let mut report = Report::of("expiration", &answer);
    if answer.is_good && Header(&path).has_gap() {
        let note = "the segments behind the first empty one are not looked at";
        report.notes.push(note.into());
    }
    Ok(report)
}
