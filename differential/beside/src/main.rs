//! The differential run: each case on the published Rust and on the Rattle archive, the answers and the bytes left compared.
//! The Rust's is the first edition: one half of the cases takes the archive's calls without an edition, the other half those in the
//! first. The second is held against the first, where no P is set.
//!
//! `beside [cases of each family] [seed] [part of lengths] [journeys]`. The third number n takes every n-th triple of lengths; 1 takes all.

use std::{process::ExitCode, time::Instant};

use beside::{archive, has_p, plans};
use oracle::{Answer, Call, Case, case, counts::Counts, inputs};

fn main() -> ExitCode {
    let mut arguments = std::env::args().skip(1);
    let mut argument = |default: u64| match arguments.next() {
        Some(text) => text.parse().expect("a number"),
        None => default,
    };
    let (cases, seed, of, journeys) = (
        argument(1_000_000),
        argument(1),
        argument(64) as usize,
        argument(20_000),
    );

    let start = Instant::now();
    let mut run = Run::default();
    for (place, family) in inputs::FAMILIES.into_iter().enumerate() {
        let seed = seed.wrapping_mul(1000) + place as u64;
        inputs::rounds(family, seed, cases, &mut |case| run.compare(case));
    }
    inputs::lengths::needed_sizes(seed as usize % of, of, &mut |case| run.compare(case));
    inputs::lengths::places(seed, seed as usize % of, of, &mut |case| run.compare(case));
    let indices = segment_indices(seed as usize % of, of, &mut run);
    let plans::Report {
        verdicts,
        in_second,
    } = plans::compare(seed, journeys, &mut run.different);

    println!("{}", run.counts);
    println!("{} segment indices; journeys: {verdicts}", indices);
    println!(
        "without P, in the second edition as in the first: {} calls, {in_second} journeys",
        run.in_second
    );
    println!(
        "{} calls compared, {} by the scope alone (1 or 4), {} different, {:.0} s",
        run.counts.total(),
        run.beyond,
        run.different,
        start.elapsed().as_secs_f64()
    );
    ExitCode::from(u8::from(run.different != 0))
}

#[derive(Default)]
struct Run {
    counts: Counts,
    beyond: u64,
    different: u64,
    rust: Vec<u8>,
    rattle: Vec<u8>,
    cases: u64,
    in_second: u64,
    second: Vec<u8>,
}

impl Run {
    fn compare(&mut self, case: &Case) {
        copy(&case.path, &mut self.rust);
        copy(&case.path, &mut self.rattle);
        self.cases += 1;
        // Not by turns: the cases of a call may come in some order.
        let rattle = if self.cases.wrapping_mul(0x9e37_79b9_7f4a_7c15) >> 63 == 0 {
            archive::run(case, &mut self.rattle)
        } else {
            archive::run_in_edition(false, case, &mut self.rattle)
        };
        self.compare_second(case, &rattle);
        // Where the scope asks more than the Rust, its own answer: nothing changes.
        let rust = match case.beyond_the_rust() {
            Some(number) => {
                self.beyond += 1;
                Answer {
                    number,
                    values: [0; 4],
                    scmp: None,
                }
            }
            None => {
                let answer = case.run(&mut self.rust);
                self.counts.add(case.call, answer.number);
                answer
            }
        };
        if rust != rattle || self.rust != self.rattle {
            self.different += 1;
            if self.different <= 10 {
                println!(
                    "DIFFERENT: {case:?}\n  Rust   {rust:?} {:?}\n  Rattle {rattle:?} {:?}",
                    self.rust, self.rattle
                );
            }
        }
    }

    /// Without P the second edition gives the answer of the first and leaves the bytes that it left in `rattle`.
    fn compare_second(&mut self, case: &Case, first: &Answer) {
        if matches!(case.call, Call::Reverse | Call::Expiration) || has_p(&case.path) {
            return;
        }
        copy(&case.path, &mut self.second);
        let second = archive::run_in_edition(true, case, &mut self.second);
        self.in_second += 1;
        if second != *first || self.second != self.rattle {
            self.different += 1;
            if self.different <= 10 {
                println!(
                    "DIFFERENT EDITIONS: {case:?}\n  first  {first:?} {:?}\n  second {second:?} {:?}",
                    self.rattle, self.second
                );
            }
        }
    }
}

fn copy(from: &[u8], to: &mut Vec<u8>) {
    to.clear();
    to.extend(from);
}

/// Every hop of every n-th triple, and the first that is not there, in a path of as many bytes as the header has and in
/// one with a byte less. The Rust asks none of 2, 3 and 4: it is compared where the scope refuses nothing.
fn segment_indices(first: usize, of: usize, run: &mut Run) -> u64 {
    let mut compared = 0;
    for triple in (first..1 << 18).step_by(of) {
        let lengths = [12, 6, 0].map(|shift| (triple >> shift & 63) as u8);
        let oracle::Sizes {
            bytes, hop_fields, ..
        } = oracle::sizes(lengths);
        let mut path = case::meta(0, 0, lengths).to_vec();
        path.resize(bytes, 0);
        let short = if bytes == 4 { 2 } else { 3 };
        for hop in 0..=hop_fields {
            compared += 1;
            let expected = if hop_fields > 64 {
                Err(4)
            } else {
                Ok(oracle::calculate_segment_index(lengths, hop))
            };
            if archive::segment_index(&path, hop as u8) != expected
                || archive::segment_index(&path[..bytes - 1], hop as u8) != Err(short)
            {
                run.different += 1;
                println!("DIFFERENT SEGMENT INDEX: {lengths:?} {hop}");
            }
        }
    }
    compared
}
