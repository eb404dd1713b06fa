//! The calls of crates/run_cases in the first edition, on the published Rust: what models of the scope in Python, and an
//! earlier run of the Rust, gave for each must be what it answers and leaves.

#[path = "../../../crates/run_cases/cases.rs"]
#[rustfmt::skip]
mod cases;

use oracle::answer::value_count;
use oracle::{Answer, Call, Case};

/// The case, if the Rust has the call.
fn case(of: &cases::Case) -> Option<Case> {
    let call = Call::ALL.iter().find(|known| known.name() == of.call)?;
    let has_table = !matches!(call, Call::Reverse | Call::Expiration);
    (of.edition == 1).then(|| Case {
        call: *call,
        path: of.path.clone(),
        ids: of.ids(),
        states: of.states.clone(),
        interface: of.first.try_into().unwrap(),
        now: of.second,
        key: if has_table { of.key() } else { [0; 16] },
        ignore_macs: of.ignore_macs,
    })
}

/// By its number.
fn text(answer: &Answer) -> String {
    let mut text = answer.number.to_string();
    for value in &answer.values[..value_count(answer.number)] {
        text += &format!(" {value}");
    }
    if let Some((kind, code, pointer)) = answer.scmp {
        text += &format!(", SCMP {kind} {code} {pointer}");
    }
    text
}

#[test]
fn the_rust_answers_as_expected() {
    let (mut compared, mut beyond, mut differences) = (0, 0, 0);
    cases::each(|of, expected, left| {
        let Some(case) = case(of) else { return };
        if let Some(question) = case.beyond_the_rust() {
            assert_eq!(expected, question.to_string());
            beyond += 1;
            return;
        }
        let mut path = case.path.clone();
        let answer = text(&case.run(&mut path));
        compared += 1;
        if (&answer[..], &path[..]) != (expected, left) {
            differences += 1;
            println!(
                "{}, {}: the Rust: {answer}, expected: {expected}",
                of.call, of.label
            );
        }
    });
    println!("{compared} compared, {beyond} beyond the Rust, {differences} differences");
    assert_eq!(differences, 0);
    assert!(compared > 1000);
}
