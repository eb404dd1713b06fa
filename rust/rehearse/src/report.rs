//! What a command has to say: as text, as a JSON object, and as an exit status.

use crate::answers::Answer;
use crate::header::Header;
use crate::hex::to_hex;
use crate::json::Json;
use crate::output::printable;
use std::ffi::OsStr;

pub struct Report {
    pub text: String,
    pub json: Vec<(&'static str, Json)>,
    /// What goes to standard error beside the text.
    pub notes: Vec<String>,
    pub status: u8,
}

impl Report {
    /// An answer of the library, with its details.
    pub fn of(command: &'static str, answer: &Answer) -> Report {
        let mut report = Report::headed(command, answer);
        report.lines(&answer.details());
        report
    }

    /// An answer of the library, its details to come.
    pub fn headed(command: &'static str, answer: &Answer) -> Report {
        Report {
            text: format!("{}\n", answer.headline()),
            json: answer.json(command),
            notes: Vec::new(),
            status: u8::from(!answer.is_good),
        }
    }

    /// Something that was done, or shown, without an answer of the library.
    pub fn done(command: &'static str, answer: &'static str, text: String) -> Report {
        Report {
            text,
            json: vec![
                ("command", Json::text(command)),
                ("answer", Json::text(answer)),
                ("number", Json::Null),
            ],
            notes: Vec::new(),
            status: 0,
        }
    }

    pub fn line(&mut self, name: &str, text: impl AsRef<str>) {
        self.text += format!("    {name:<12} {}", printable(text.as_ref())).trim_end();
        self.text.push('\n');
    }

    pub fn lines(&mut self, lines: &[(String, String)]) {
        for (name, text) in lines {
            self.line(name, text);
        }
    }

    /// Sentences one below the other, and as a list of that name. Gives the first.
    pub fn list(&mut self, label: &str, name: &'static str, sentences: Vec<String>) -> Option<String> {
        for (at, sentence) in sentences.iter().enumerate() {
            self.line(if at == 0 { label } else { "" }, sentence);
        }
        let first = sentences.first().cloned();
        self.member(name, Json::List(sentences.into_iter().map(Json::Text).collect()));
        first
    }

    pub fn member(&mut self, name: &'static str, value: Json) {
        self.json.push((name, value));
    }

    /// The file that was written.
    pub fn written(&mut self, name: &OsStr) {
        self.line("written", name.to_string_lossy());
        self.member("written", Json::text(name.to_string_lossy()));
    }

    /// Which bytes a call changed, before and after, and the header that it left.
    pub fn path_left(&mut self, before: &[u8], after: &[u8]) {
        let changes = changes(before, after);
        let bytes: usize = changes.iter().map(|change| change.before.len()).sum();
        match bytes {
            0 => self.line("changed", "no byte of the path"),
            bytes => self.line("changed", format!("{} of the path", counted(bytes, "byte"))),
        }
        for Change {
            at,
            field,
            before,
            after,
        } in &changes
        {
            let (before, after) = (to_hex(before), to_hex(after));
            self.text += &format!("        byte {at:<4} {before} -> {after}  {field}\n");
        }
        let (header, behind) = Header(after).parts();
        self.line(
            "path",
            if header.is_empty() {
                "none".into()
            } else {
                to_hex(header)
            },
        );
        let list = changes.into_iter().map(|change| {
            Json::Object(vec![
                ("at", Json::number(change.at)),
                ("field", Json::text(change.field)),
                ("before", Json::text(to_hex(&change.before))),
                ("after", Json::text(to_hex(&change.after))),
            ])
        });
        self.member("bytes_changed", Json::List(list.collect()));
        self.member("path", Json::text(to_hex(header)));
        self.member("bytes_behind", Json::number(behind.len()));
    }
}

/// Bytes of one field that a call changed, one behind the other.
struct Change {
    at: usize,
    field: String,
    before: Vec<u8>,
    after: Vec<u8>,
}

fn changes(before: &[u8], after: &[u8]) -> Vec<Change> {
    let mut changes: Vec<Change> = Vec::new();
    let mut fields = Header(before).fields();
    let size = Header(before).size();
    fields.push((size, before.len().saturating_sub(size), "behind the header".into()));
    for (start, size, field) in fields {
        let bytes = before.iter().zip(after).enumerate().skip(start).take(size);
        for (at, (&old, &new)) in bytes.filter(|(_, (old, new))| old != new) {
            match changes.last_mut() {
                Some(last) if last.field == field && last.at + last.before.len() == at => {
                    last.before.push(old);
                    last.after.push(new);
                }
                _ => changes.push(Change {
                    at,
                    field: field.clone(),
                    before: vec![old],
                    after: vec![new],
                }),
            }
        }
    }
    changes
}

pub fn counted(count: usize, of: &str) -> String {
    format!("{count} {of}{}", if count == 1 { "" } else { "s" })
}

/// The first of a long list, and how many more there are.
pub fn cut(mut list: Vec<String>, most: usize) -> Vec<String> {
    let more = list.len().saturating_sub(most);
    if more > 0 {
        list.truncate(most);
        list.push(format!("and {more} more"));
    }
    list
}

/// Sentences of one kind, twenty at most: whoever reads them starts with the first.
pub fn sentences(list: Vec<String>) -> Vec<String> {
    cut(list, 20)
}
