//! No key gets out by a slip of the hand: plans and calls are changed at random, and what is said of them is searched for
//! the keys' digits.

use super::{run, Said};
use crate::files::{Files, Made};
use crate::hex::to_hex;
use crate::write::Holds;
use std::collections::HashSet;
use std::ffi::{OsStr, OsString};

/// Numbers that look random, the same in every run.
struct Random(u64);

impl Random {
    fn below(&mut self, limit: usize) -> usize {
        self.0 = self
            .0
            .wrapping_mul(6_364_136_223_846_793_005)
            .wrapping_add(1_442_695_040_888_963_407);
        (self.0 >> 33) as usize % limit
    }

    fn of<T: Copy>(&mut self, choice: &[T]) -> T {
        choice[self.below(choice.len())]
    }
}

// ---- what may not be said

/// Eight hex digits, one behind the other: a part of a key. Signs do not part them, but for the quotes of a sentence.
fn parts(text: &str) -> HashSet<String> {
    let letters = text.chars().filter(|&letter| letter.is_alphanumeric() || letter == '`');
    let letters: Vec<char> = letters.map(|letter| letter.to_ascii_lowercase()).collect();
    let all_digits = |part: &&[char]| part.iter().all(char::is_ascii_hexdigit);
    letters
        .windows(8)
        .filter(all_digits)
        .map(|part| part.iter().collect())
        .collect()
}

fn assert_silent(secret: &HashSet<String>, call: &[OsString], said: &Said, about: &str) {
    for text in [&said.out, &said.err] {
        let told = parts(text);
        let told: Vec<_> = told.intersection(secret).collect();
        assert!(told.is_empty(), "{told:?} of {about:?} is told by {call:?}: {text}");
    }
}

// ---- slips

/// What is put in by a slip: digits, other letters, signs, white space, letters that nobody sees.
const PUT_IN: [&str; 24] = [
    "0", "7", "a", "F", "g", "x", "O", "é", " ", " ", "\n", "\n", "\t", "#", ":", "=", "\"", "-", "\u{200b}", "0x",
    "key=", "key: ", "key ", "@",
];

/// Changes a text in a few places.
fn slip(random: &mut Random, text: &str) -> String {
    let mut letters: Vec<char> = text.chars().collect();
    for _ in 0..1 + random.below(5) {
        if !letters.is_empty() {
            let at = place(random, &letters);
            change(random, &mut letters, at);
        }
    }
    letters.into_iter().collect()
}

/// A place in a text, half of the time in a key.
fn place(random: &mut Random, letters: &[char]) -> usize {
    let digits = letters.windows(4).enumerate();
    let digits = digits.filter(|(_, part)| part.iter().all(char::is_ascii_hexdigit));
    let places: Vec<usize> = digits.map(|(at, _)| at).collect();
    match random.below(2) {
        0 if !places.is_empty() => random.of(&places) + random.below(4),
        _ => random.below(letters.len()),
    }
}

fn change(random: &mut Random, letters: &mut Vec<char>, at: usize) {
    let (put_in, last) = (random.of(&PUT_IN).chars(), letters.len() - 1);
    match random.below(8) {
        0 | 1 => drop(letters.remove(at)),
        2 | 3 => drop(letters.splice(at..at, put_in)),
        4 => drop(letters.splice(at..=at, put_in)),
        5 => letters.swap(at, last.min(at + 1)),
        6 => letters
            .iter_mut()
            .skip(at)
            .filter(|letter| **letter == '\n')
            .take(2)
            .for_each(|end| *end = ' '),
        _ => move_word(random, letters, at),
    }
}

/// The word at a place goes somewhere else.
fn move_word(random: &mut Random, letters: &mut Vec<char>, at: usize) {
    let is_white = |letter: &char| letter.is_whitespace();
    let start = letters[..at].iter().rposition(is_white).map_or(0, |before| before + 1);
    let end = letters[at..]
        .iter()
        .position(is_white)
        .map_or(letters.len(), |behind| at + behind);
    let word: Vec<char> = letters.drain(start..end).chain([' ']).collect();
    let to = random.below(letters.len() + 1);
    letters.splice(to..to, word);
}

// ---- plans

const PLAN: &str = include_str!("../../../../examples/site/plan.txt");
const PATH: &str = include_str!("../../../../examples/site/good.txt");

/// A key: of hex digits, of decimal ones alone, or in capital letters.
fn key(random: &mut Random) -> String {
    let digits = random.of(&["0123456789abcdef", "0123456789", "0123456789ABCDEF"]);
    (0..32).map(|_| char::from(random.of(digits.as_bytes()))).collect()
}

/// The example's plan with other keys.
fn plan(random: &mut Random) -> String {
    let line = |line: &str| match line.trim().strip_prefix("key ") {
        Some(old) => line.replace(old, &key(random)) + "\n",
        None => format!("{line}\n"),
    };
    PLAN.lines().map(line).collect()
}

fn words(call: &str) -> Vec<OsString> {
    call.split(' ').map(OsString::from).collect()
}

fn put(files: &Files, name: &str, content: &[u8]) {
    let made = Made {
        bytes: content,
        as_hex: to_hex,
        holds: Holds::Keys,
    };
    assert!(files.write(OsStr::new(name), &made).is_ok());
}

/// The example site in memory.
fn site() -> Files {
    let files = Files::in_memory();
    put(&files, "plan.txt", PLAN.as_bytes());
    put(&files, "good.txt", PATH.as_bytes());
    run(&words("plan plan.txt -o site.plan"), &files);
    run(&words("sign good.txt --plan site.plan -o good.path"), &files);
    files
}

/// Every way to read a file `m`.
const READ: [&str; 14] = [
    "plan m -o out",
    "plan --show m",
    "journey good.path m --earliest 1 --latest 2",
    "journey m site.plan --earliest 1 --latest 2",
    "sign good.txt --plan m -o out",
    "sign m --plan site.plan -o out",
    "sign --show m",
    "step good.path --plan m --station 0 --now 0",
    "step good.path --table m --key 000102030405060708090a0b0c0d0e0f --interface 0 --now 0",
    "step good.path --table 1:parent:up --key @m --interface 0 --now 0",
    "step m --plan site.plan --station 0 --now 0",
    "show m",
    "reverse m",
    "expiration m",
];

#[test]
fn a_plan_with_slips_is_not_told() {
    let (mut random, files) = (Random(1), site());
    for _ in 0..2_000 {
        let plan = plan(&mut random);
        let text = slip(&mut random, &plan);
        put(&files, "m", text.as_bytes());
        let secret = parts(&text);
        for call in READ {
            for call in [call.to_string(), format!("{call} --json")] {
                let call = words(&call);
                let said = run(&call, &files);
                // A plan that is read is shown with its keys where it is to be shown.
                if call[0] != "plan" || said.status == 2 {
                    assert_silent(&secret, &call, &said, &text);
                }
            }
        }
    }
}

/// A plan's bytes with a slip: one is another, too much or missing, or the end is. A plan whose first two bytes are wrong has
/// no station to begin with, and is not known for a plan.
fn slip_in_bytes(random: &mut Random, bytes: &mut Vec<u8>) {
    let at = 2 + random.below(bytes.len() - 2);
    match random.below(4) {
        0 => bytes[at] = random.below(256) as u8,
        1 => bytes.insert(at, random.below(256) as u8),
        2 => drop(bytes.remove(at)),
        _ => bytes.truncate(at),
    }
}

#[test]
fn a_plan_of_bytes_with_slips_is_not_told() {
    let (mut random, files) = (Random(4), site());
    for _ in 0..200 {
        let text = plan(&mut random);
        put(&files, "m.txt", text.as_bytes());
        assert_eq!(run(&words("plan m.txt -o m"), &files).status, 0);
        let mut bytes = files.read(OsStr::new("m")).unwrap();
        slip_in_bytes(&mut random, &mut bytes);
        let (secret, as_hex) = (parts(&text), to_hex(&bytes));
        for content in [&bytes[..], as_hex.as_bytes()] {
            put(&files, "m", content);
            for call in READ
                .iter()
                .flat_map(|call| [call.to_string(), format!("{call} --json")])
            {
                let (call, is_shown) = (words(&call), call.starts_with("plan --show"));
                let said = run(&call, &files);
                if !is_shown || said.status == 2 {
                    assert_silent(&secret, &call, &said, &as_hex);
                }
            }
        }
    }
}

// ---- calls

const CALLS: [&str; 6] = [
    "step good.path --table 1:parent:up --key KEY --interface 0 --now 2026-11-16T06:05:00Z",
    "egress good.path --key=KEY --table 1:parent:up --interface 1 --now 2026-11-16",
    "ingress good.path --table KEY --key @m --interface 0 --now KEY",
    "show KEY",
    "journey good.path site.plan --earliest 2026-11-16 --latest 2026-11-17 KEY",
    "sign good.txt --plan KEY -o out",
];

/// A key with a letter among any eight of its digits: where a time or a file is named, digits alone are no secret.
fn key_with_letters(random: &mut Random) -> String {
    loop {
        let key = key(random);
        let has_letter = |part: &[u8]| part.iter().any(u8::is_ascii_alphabetic);
        if key.as_bytes().windows(8).all(has_letter) {
            return key;
        }
    }
}

#[test]
fn a_call_with_slips_is_not_told() {
    let (mut random, files) = (Random(2), site());
    for _ in 0..10_000 {
        let key = key_with_letters(&mut random);
        let call = random.of(&CALLS).replace("KEY", &key);
        let call = slip(&mut random, &call);
        let call: Vec<OsString> = call.split([' ', '\n']).map(OsString::from).collect();
        for call in [call.clone(), [call, words("--json")].concat()] {
            assert_silent(&parts(&key), &call, &run(&call, &files), &key);
        }
    }
}
