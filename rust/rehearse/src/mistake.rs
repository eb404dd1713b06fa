//! What went wrong with a call, as a sentence for whoever made it.

use crate::json::Json;
use crate::output::shortened;

/// A mistake in the call, or a file that can't be read or written: a sentence that says what to do.
#[derive(Debug)]
pub struct Mistake(pub String);

impl Mistake {
    /// A sentence may quote what it is about, which may be long.
    pub fn new(sentence: impl AsRef<str>) -> Mistake {
        Mistake(shortened(sentence.as_ref()))
    }

    /// The members of its JSON object.
    pub fn json(&self, command: Option<&'static str>) -> Vec<(&'static str, Json)> {
        vec![
            ("command", command.map_or(Json::Null, Json::text)),
            ("answer", Json::text("mistake")),
            ("number", Json::Null),
            ("sentence", Json::text(&self.0)),
        ]
    }
}

pub type Checked<T> = Result<T, Mistake>;

pub fn mistake<T>(sentence: impl AsRef<str>) -> Checked<T> {
    Err(Mistake::new(sentence))
}
