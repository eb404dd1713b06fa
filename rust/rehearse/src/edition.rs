//! The edition of the rules that a call follows. In the second, P makes a path one over a peering link.

use crate::arguments::Arguments;
use crate::header::Header;
use crate::json::Json;
use crate::mistake::{mistake, Checked};
use crate::quoting::quoted;
use crate::report::Report;
use standard_path::Edition;

/// The option, for the form of each command that takes a path.
pub const OPTION: (&str, &str) = ("--edition", "1, or 2 for the draft's peering rule");

/// The edition that a call names: the first if it names none.
pub fn of(arguments: &Arguments) -> Checked<Edition> {
    if arguments.value("--edition").is_none() {
        return Ok(Edition::First);
    }
    match arguments.needed("--edition")? {
        "1" => Ok(Edition::First),
        "2" => Ok(Edition::Second),
        word => mistake(format!("--edition: {} is no edition: write {}", quoted(word), OPTION.1)),
    }
}

/// Says which edition an answer is of. The first goes without saying, but for JSON.
pub fn tell(edition: Edition, report: &mut Report) {
    let number = match edition {
        Edition::First => 1u8,
        Edition::Second => 2,
    };
    if edition == Edition::Second {
        report.line("edition", "2, with the draft's peering rule");
    }
    report.member("edition", Json::number(number));
}

/// What is said of P where it has no meaning.
pub const NO_MEANING: &str = "P is set, which has no meaning in edition 1: `--edition 2` has the draft's peering rule";

/// More to do about a refusal with this number, where P is set for a peering link.
pub fn advice(edition: Edition, number: u16, header: Header<'_>) -> Option<&'static str> {
    match (edition, number) {
        _ if !header.is_peering_path(Edition::Second) => None,
        (Edition::First, 5 | 6 | 9 | 12..=16 | 18 | 23) => Some(FOR_FIRST),
        (Edition::Second, 12) => Some(FOR_SECOND),
        _ => None,
    }
}

const FOR_FIRST: &str = "P is set in both info fields: for a path over a peering link take `--edition 2`.";
const FOR_SECOND: &str = "A path over a peering link is signed with `--edition 2` too.";
