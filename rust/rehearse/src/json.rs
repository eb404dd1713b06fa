//! JSON, written by hand.

use crate::output::is_written_out;
use std::fmt;

#[derive(Debug, Clone, PartialEq, Eq)]
pub enum Json {
    Null,
    Flag(bool),
    Number(u64),
    Text(String),
    List(Vec<Json>),
    Object(Vec<(&'static str, Json)>),
}

impl Json {
    pub fn text(text: impl Into<String>) -> Json {
        Json::Text(text.into())
    }

    pub fn number(number: impl TryInto<u64>) -> Json {
        number.try_into().map_or(Json::Null, Json::Number)
    }
}

impl fmt::Display for Json {
    fn fmt(&self, f: &mut fmt::Formatter<'_>) -> fmt::Result {
        match self {
            Json::Null => f.write_str("null"),
            Json::Flag(flag) => write!(f, "{flag}"),
            Json::Number(number) => write!(f, "{number}"),
            Json::Text(text) => quoted(f, text),
            Json::List(items) => {
                f.write_str("[")?;
                for (at, item) in items.iter().enumerate() {
                    f.write_str(if at == 0 { "" } else { "," })?;
                    item.fmt(f)?;
                }
                f.write_str("]")
            }
            Json::Object(members) => {
                f.write_str("{")?;
                for (at, (name, value)) in members.iter().enumerate() {
                    f.write_str(if at == 0 { "" } else { "," })?;
                    quoted(f, name)?;
                    f.write_str(":")?;
                    value.fmt(f)?;
                }
                f.write_str("}")
            }
        }
    }
}

fn quoted(f: &mut fmt::Formatter<'_>, text: &str) -> fmt::Result {
    f.write_str("\"")?;
    for letter in text.chars() {
        match letter {
            '"' => f.write_str("\\\"")?,
            '\\' => f.write_str("\\\\")?,
            '\n' => f.write_str("\\n")?,
            '\r' => f.write_str("\\r")?,
            '\t' => f.write_str("\\t")?,
            letter if is_written_out(letter) => escaped(f, letter)?,
            letter => write!(f, "{letter}")?,
        }
    }
    f.write_str("\"")
}

/// A letter by its number: two numbers where it is above U+FFFF.
fn escaped(f: &mut fmt::Formatter<'_>, letter: char) -> fmt::Result {
    letter
        .encode_utf16(&mut [0; 2])
        .iter()
        .try_for_each(|unit| write!(f, "\\u{unit:04x}"))
}

#[cfg(test)]
mod tests {
    use super::*;

    #[test]
    fn each_kind_is_written() {
        let all = Json::Object(vec![
            ("none", Json::Null),
            ("flag", Json::Flag(true)),
            ("number", Json::number(u32::MAX)),
            ("list", Json::List(vec![Json::Number(1), Json::text("two")])),
            ("empty", Json::List(vec![])),
        ]);
        assert_eq!(
            all.to_string(),
            r#"{"none":null,"flag":true,"number":4294967295,"list":[1,"two"],"empty":[]}"#
        );
    }

    #[test]
    fn letters_that_json_reserves_are_escaped() {
        assert_eq!(
            Json::text("\"\\\n\r\t\u{1}\u{7f}é").to_string(),
            "\"\\\"\\\\\\n\\r\\t\\u0001\\u007fé\""
        );
        assert_eq!(
            Json::text("\u{85}\u{202e}\u{2028}\u{e0041}🚚").to_string(),
            r#""\u0085\u202e\u2028\udb40\udc41🚚""#
        );
    }
}
