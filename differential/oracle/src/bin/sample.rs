//! Prints a sample of the Rust's answers, balanced over families, calls and answers:
//! `sample [cases of each family] [lines of each call and answer] [seed] [part of lengths]`.
//!
//! A line has, between tabs: call, path, interface numbers, states, interface, time, key, whether MACs are ignored, the
//! answer, the bytes left.

use std::{
    collections::BTreeMap,
    io::{self, BufWriter, Write},
};

use oracle::{Case, inputs, inputs::rng::Rng};

fn main() -> io::Result<()> {
    let mut arguments = std::env::args().skip(1);
    let mut argument = |default: u64| match arguments.next() {
        Some(text) => text.parse().expect("a number"),
        None => default,
    };
    let (cases, lines) = (argument(100_000), argument(10) as usize);
    let (seed, of) = (argument(1), argument(64) as usize);

    let mut out = BufWriter::new(io::stdout().lock());
    for (place, family) in inputs::FAMILIES.into_iter().enumerate() {
        let seed = seed.wrapping_mul(1000) + place as u64;
        let mut sample = Sample::new(lines, seed);
        inputs::rounds(family, seed, cases, &mut |case| sample.add(case));
        sample.print(&mut out)?;
    }
    let mut sample = Sample::new(lines, seed);
    inputs::lengths::places(seed, seed as usize % of, of, &mut |case| sample.add(case));
    sample.print(&mut out)?;
    out.flush()
}

/// So many cases of each call and answer, each with the same chance to be among them.
struct Sample {
    lines: usize,
    rng: Rng,
    kept: BTreeMap<(&'static str, u16), (usize, Vec<Case>)>,
    path: Vec<u8>,
}

impl Sample {
    fn new(lines: usize, seed: u64) -> Self {
        Sample {
            lines,
            rng: Rng::new(seed),
            kept: BTreeMap::new(),
            path: Vec::new(),
        }
    }

    fn add(&mut self, case: &Case) {
        if case.beyond_the_rust().is_some() {
            return;
        }
        self.path.clear();
        self.path.extend(&case.path);
        let answer = case.run(&mut self.path);
        let key = (case.call.name(), answer.number);
        let (seen, kept) = self.kept.entry(key).or_default();
        *seen += 1;
        if kept.len() < self.lines {
            kept.push(case.clone());
        } else {
            let place = self.rng.below(*seen);
            if place < self.lines {
                kept[place] = case.clone();
            }
        }
    }

    fn print(&self, out: &mut impl Write) -> io::Result<()> {
        for case in self.kept.values().flat_map(|(_, kept)| kept) {
            let mut left = case.path.clone();
            let answer = case.run(&mut left);
            write!(out, "{}\t{}\t", case.call.name(), hex(&case.path))?;
            write!(out, "{}\t{}\t", spaced(&case.ids), spaced(&case.states))?;
            write!(
                out,
                "{}\t{}\t{}\t",
                case.interface,
                case.now,
                hex(&case.key)
            )?;
            writeln!(out, "{}\t{answer}\t{}", case.ignore_macs as u8, hex(&left))?;
        }
        Ok(())
    }
}

fn hex(bytes: &[u8]) -> String {
    bytes.iter().map(|byte| format!("{byte:02x}")).collect()
}

fn spaced(numbers: &[impl ToString]) -> String {
    let texts: Vec<String> = numbers.iter().map(ToString::to_string).collect();
    texts.join(" ")
}
