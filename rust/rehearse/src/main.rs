//! `rehearse`: shows path headers and site plans, and what the proved library says of them.
//!
//! Nothing here decides about a path: a command reads what it is given, calls the library and prints the answer.
#![forbid(unsafe_code)]

mod answers;
mod arguments;
mod by_hand;
mod commands;
mod dates;
mod drive;
mod edition;
mod files;
mod header;
mod hex;
mod hop_text;
mod hop_words;
mod interfaces;
mod itinerary;
mod json;
mod kinds;
mod lines;
mod mistake;
mod nearest;
mod not_asked;
mod output;
mod part;
mod path_text;
mod path_words;
mod plan;
mod quoting;
mod report;
mod rights;
mod seen;
mod sentences;
mod signing;
mod write;

use std::process::ExitCode;

fn main() -> ExitCode {
    let words: Vec<_> = std::env::args_os().skip(1).collect();
    let said = commands::run(&words, &files::Files::on_disk());
    let status = match output::print(&said.out) {
        Ok(_) => said.status,
        Err(mistake) => {
            output::complain(&format!("rehearse: {}\n", mistake.0));
            2
        }
    };
    output::complain(&said.err);
    ExitCode::from(status)
}
