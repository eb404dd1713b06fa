//! The names of each command's JSON object: the same for every answer, with null where there is nothing to say.

use crate::json::Json;

/// Those that every object starts with.
const FIRST: [&str; 9] = [
    "command",
    "answer",
    "number",
    "sentence",
    "values",
    "scmp",
    "question",
    "means",
    "what_to_do",
];

fn further(command: &str) -> &'static [&'static str] {
    match command {
        "demo" => &["steps", "files"],
        "show" => &[
            "curr_inf",
            "curr_hf",
            "reserved",
            "lengths",
            "infos",
            "hops",
            "ends_before_byte",
            "bytes_read",
            "bytes_behind",
            "expiration",
            "segments",
            "edition",
            "peering_hops",
        ],
        "step" | "ingress" | "egress" => &[
            "now",
            "named_hops",
            "bytes_changed",
            "path",
            "bytes_behind",
            "written",
            "edition",
        ],
        "reverse" => &["bytes_changed", "path", "bytes_behind", "written"],
        "journey" => &[
            "hops",
            "infos",
            "stations",
            "earliest",
            "latest",
            "stops",
            "seen",
            "not_asked",
            "line",
            "path_file",
            "plan_file",
            "journeys",
            "passed",
            "not_passed",
            "refused",
            "refused_by",
            "not_read",
            "edition",
        ],
        "plan" => &["stations", "fits_some_path", "plan", "remarks", "text", "written"],
        "sign" => &[
            "hops",
            "infos",
            "macs_worked_out",
            "expiration",
            "path",
            "text",
            "written",
            "edition",
        ],
        _ => &[],
    }
}

/// An object with all names of its command.
pub fn object(command: Option<&str>, members: Vec<(&'static str, Json)>) -> Json {
    let names = FIRST.iter().chain(further(command.unwrap_or(""))).chain(&["notes"]);
    let value = |name: &str| members.iter().find(|(member, _)| *member == name);
    let all = names.map(|&name| (name, value(name).map_or(Json::Null, |(_, value)| value.clone())));
    let all: Vec<_> = all.collect();
    debug_assert!(members
        .iter()
        .all(|(name, _)| all.iter().any(|(member, _)| name == member)));
    Json::Object(all)
}
