//! Runs the oracle alone over the inputs and counts its answers: `count [cases of each family] [seed] [part of lengths]`.
//!
//! The last number n takes every n-th triple of lengths; 1 takes all.

use std::time::Instant;

use oracle::{Case, counts::Counts, inputs};

fn main() {
    let mut arguments = std::env::args().skip(1);
    let mut argument = |default: u64| match arguments.next() {
        Some(text) => text.parse().expect("a number"),
        None => default,
    };
    let (cases, seed, of) = (argument(1_000_000), argument(1), argument(64) as usize);

    let mut all = Run::default();
    for (place, family) in inputs::FAMILIES.into_iter().enumerate() {
        let mut run = Run::default();
        let seed = seed.wrapping_mul(1000) + place as u64;
        inputs::rounds(family, seed, cases, &mut |case| run.add(case));
        run.report(family.0, &mut all);
    }
    let mut run = Run::default();
    inputs::lengths::needed_sizes(seed as usize % of, of, &mut |case| run.add(case));
    run.report("needed sizes", &mut all);
    let mut run = Run::default();
    inputs::lengths::places(seed, seed as usize % of, of, &mut |case| run.add(case));
    run.report("places", &mut all);
    println!("{}", all.counts);
    println!("{} beyond the Rust (1 or 4)", all.beyond);
}

struct Run {
    counts: Counts,
    beyond: u64,
    start: Instant,
    path: Vec<u8>,
}

impl Default for Run {
    fn default() -> Self {
        Run {
            counts: Counts::default(),
            beyond: 0,
            start: Instant::now(),
            path: Vec::new(),
        }
    }
}

impl Run {
    fn add(&mut self, case: &Case) {
        if case.beyond_the_rust().is_some() {
            self.beyond += 1;
            return;
        }
        self.path.clear();
        self.path.extend(&case.path);
        self.counts.add(case.call, case.run(&mut self.path).number);
    }

    fn report(self, family: &str, all: &mut Run) {
        let seconds = self.start.elapsed().as_secs_f64();
        let total = self.counts.total() + self.beyond;
        let rate = total as f64 / seconds / 1e6;
        println!("{family}: {total} cases in {seconds:.1} s, {rate:.2} million a second");
        all.counts.add_all(&self.counts);
        all.beyond += self.beyond;
    }
}
