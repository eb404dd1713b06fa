//! The calls of `crates/run_cases`, for tests from Rust: `stdin` spells them out, as src/main.rt says, and `stdout` has what
//! models in Python and the published Rust give.

const SCRIPT: &str = include_str!("stdin");
const LINES: &str = include_str!("stdout");

/// A call with what it is given.
#[derive(Default)]
pub struct Case {
    /// The title of the list that it stands in.
    pub list: &'static str,
    pub call: &'static str,
    pub edition: u8,
    /// The interface, or the earliest reading.
    pub first: u32,
    /// The time, or the latest reading.
    pub second: u32,
    pub ignore_macs: bool,
    pub label: String,
    pub path: Vec<u8>,
    pub itinerary: Vec<u8>,
    numbers: Vec<u8>,
    pub states: Vec<u8>,
    key: Vec<u8>,
}

impl Case {
    pub fn ids(&self) -> Vec<u16> {
        let pairs = self.numbers.chunks(2);
        pairs.map(|pair| u16::from_be_bytes([pair[0], pair[1]])).collect()
    }

    pub fn key(&self) -> [u8; 16] {
        self.key[..].try_into().unwrap()
    }

    fn bytes(&mut self, name: &str) -> &mut Vec<u8> {
        match name {
            "path" => &mut self.path,
            "itinerary" => &mut self.itinerary,
            "numbers" => &mut self.numbers,
            "states" => &mut self.states,
            "key" => &mut self.key,
            _ => panic!("no bytes are named {name}"),
        }
    }
}

fn put(words: &[&str], at: usize, bytes: &mut [u8]) {
    let hex = words.concat();
    for place in 0..hex.len() / 2 {
        bytes[at + place] = u8::from_str_radix(&hex[2 * place..2 * place + 2], 16).unwrap();
    }
}

/// Hands out each call with the answer that is expected, by its number, and the bytes that are to be left.
pub fn each(mut run: impl FnMut(&Case, &str, &[u8])) {
    let mut case = Case::default();
    let mut lines = LINES.lines();
    for line in SCRIPT.lines() {
        let words: Vec<&str> = line.split(' ').collect();
        let number = |at: usize| words[at].parse::<usize>().unwrap();
        match words[0] {
            "#" => case.list = &line[2..],
            "edit" => put(&words[3..], number(2), case.bytes(words[1])),
            "record" => put(&words[2..], 32 * number(1), &mut case.itinerary),
            "call" => {
                case.call = words[1];
                case.edition = number(2) as u8;
                case.first = number(3) as u32;
                case.second = number(4) as u32;
                case.ignore_macs = number(5) == 1;
                case.label = words[6..].join(" ");
                let line = lines.next().unwrap();
                let expected = line.strip_prefix(&format!("{}: ", words[1..].join(" ")));
                let (answer, changed) = expected.unwrap().split_once(", left").unwrap();
                let mut left = case.path.clone();
                for change in changed.split_whitespace() {
                    let (at, byte) = change.split_once('=').unwrap();
                    put(&[byte], at.parse().unwrap(), &mut left);
                }
                run(&case, answer, &left);
            }
            name => {
                *case.bytes(name) = vec![0; number(1)];
                put(&words[2..], 0, case.bytes(name));
            }
        }
    }
    assert_eq!(lines.next(), None);
}
