//! Two lists of `crates/run_cases`, typed as calls of the program: each answer with its values, its SCMP error and the
//! bytes left is that of a model in Python.

#[path = "../../../crates/run_cases/cases.rs"]
#[rustfmt::skip]
mod cases;
mod common;

use cases::Case;
use common::json::{parse, Value};
use common::{to_hex, Folder};

/// The words of a call and its table, or none where a table has not one state for each number, which the command can't be given.
fn words(case: &Case) -> Option<(Vec<String>, String)> {
    let mut words = vec![case.call, "path.hex", "--json"];
    if case.call == "expiration" || case.call == "reverse" {
        if case.call == "reverse" {
            words.extend(["--write", "left"]);
        }
        return Some((words.into_iter().map(String::from).collect(), String::new()));
    }
    let (ids, states) = (case.ids(), &case.states);
    if ids.len() != states.len() {
        return None;
    }
    let entries = ids
        .iter()
        .zip(states)
        .map(|(id, state)| format!("interface {id} state {state}\n"));
    let (key, interface, now) = (to_hex(&case.key()), case.first.to_string(), case.second.to_string());
    words.extend(["--table", "table.txt", "--key", &key, "--write", "left"]);
    words.extend(["--interface", &interface, "--now", &now]);
    if case.ignore_macs {
        words.push("--ignore-macs");
    }
    Some((words.into_iter().map(String::from).collect(), entries.collect()))
}

/// The answer by its number.
fn line(answer: &Value) -> String {
    let Some(Value::Object(values)) = answer.get("values") else {
        panic!("no values")
    };
    let values: String = values
        .iter()
        .map(|(_, value)| match value {
            Value::Number(number) => format!(" {number}"),
            Value::Flag(flag) => format!(" {}", u8::from(*flag)),
            Value::Text(mac) => format!(" {}", u64::from_str_radix(mac, 16).unwrap()),
            other => panic!("{other:?}"),
        })
        .collect();
    let number = answer.number("number").unwrap();
    let word = match number {
        100 => "goes_on",
        101 => "forwarded",
        102 => "delivered",
        103 => "ingress_alert",
        104 => "egress_alert",
        110 => "reversed",
        111 => "expiration",
        _ => "refused",
    };
    assert_eq!(answer.text("answer"), word);
    let scmp = match answer.get("scmp") {
        Some(Value::Null) => String::new(),
        Some(scmp) => {
            let last = ["pointer", "interface"]
                .into_iter()
                .find(|name| scmp.get(name).is_some());
            let last = last.and_then(|name| scmp.number(name));
            let (kind, code) = (scmp.number("type").unwrap(), scmp.number("code").unwrap());
            format!(", SCMP {kind} {code} {}", last.unwrap())
        }
        None => panic!("no scmp"),
    };
    format!("{number}{values}{scmp}")
}

#[test]
fn each_case_of_the_step_is_answered_as_by_the_model() {
    let folder = Folder::new();
    let mut tried = 0;
    cases::each(|case, expected, left| {
        if !case.list.starts_with("the step") || case.call == "index" {
            return;
        }
        let Some((words, table)) = words(case) else { return };
        let words: Vec<&str> = words.iter().map(String::as_str).collect();
        folder.write("path.hex", to_hex(&case.path));
        folder.write("table.txt", &table);
        folder.write("left", &case.path);
        let ran = folder.call(&words, b"");
        let name = format!("{}, {}", case.call, case.label);
        assert_eq!(ran.err, "", "{name}");
        let answer = parse(&ran.out);
        let written = to_hex(&folder.read("left"));
        assert_eq!((&line(&answer)[..], &written), (expected, &to_hex(left)), "{name}");
        if words[0] != "expiration" {
            assert!(written.starts_with(answer.text("path")), "{name}");
        }
        let good = ["goes_on", "forwarded", "delivered", "reversed", "expiration"].contains(&answer.text("answer"));
        assert_eq!(ran.status, i32::from(!good), "{name}");
        tried += 1;
    });
    assert!(tried > 170, "{tried}");
}

#[test]
fn each_journey_case_is_answered_as_by_the_model() {
    let folder = Folder::new();
    let mut tried = 0;
    cases::each(|case, expected, _| {
        if !case.list.starts_with("the journey check") {
            return;
        }
        folder.write("path", &case.path);
        folder.write("plan", &case.itinerary);
        let (earliest, latest, label) = (case.first, case.second, &case.label);
        let call = format!("journey path plan --raw --json --earliest {earliest} --latest {latest}");
        let ran = folder.run(&call);
        let answer = parse(&ran.out);
        let number = answer.number("number").unwrap().to_string();
        let said = match expected {
            "120" => "passed",
            "121" => "not_passed",
            _ => "refused",
        };
        assert_eq!(
            (answer.text("answer"), &number[..], &ran.err[..]),
            (said, expected, ""),
            "{label}"
        );
        assert_eq!(ran.status, i32::from(said != "passed"), "{label}");
        // Where a path does not pass, driving it finds a station and one of the numbers that can come.
        let stop = answer.get("stops").and_then(|stop| stop.get("number"));
        let stops = [5, 6, 7, 9, 10, 11, 12, 14, 15, 16, 17, 18];
        let is_stop = matches!(stop, Some(Value::Number(number)) if stops.contains(number));
        assert_eq!(is_stop, said == "not_passed", "{label}{}", ran.out);
        shown_and_written(&folder, &case.itinerary);
        tried += 1;
    });
    assert!(tried > 300, "{tried}");
}

/// A plan is shown whatever it holds; written again, its text is the same plan, unless the program says otherwise.
fn shown_and_written(folder: &Folder, plan: &[u8]) {
    let shown = folder.run("plan --show plan --raw");
    assert!(shown.status == 0 || shown.status == 1, "{shown:?}");
    folder.write("text", &shown.out);
    let written = folder.run("plan text -o again");
    // What is not shown in a text is sound when it is written anew.
    assert!((0..=shown.status).contains(&written.status), "{written:?}");
    if !shown.out.starts_with('#') {
        assert_eq!(to_hex(&folder.read("again")), to_hex(plan));
    }
}
