//! Times each call on the published Rust and on the archive, in one run and on the same inputs: paths with right MACs that the
//! call lets go on, each call with a copy of its path. The least of many short batches, the two sides round about.
//! The Rust has no journey check: beside it a journey is driven on the Rust twice, as the check's verdict asks, with every clock
//! at the earliest reading and with every clock at the latest.
//!
//! The Rust has the first edition only: the second's step, on the inputs of the first's that have no P, stands beside it.
//!
//! The Rust's AES is the stand-in's, once with the processor's AES instructions and once without; the archive's is portable.

use std::{hint::black_box, time::Instant};

use beside::{archive, has_p, plans};
use cmac::{Cmac, Mac};
use oracle::{
    Answer, Call, Case,
    inputs::{self, arrivals, rng::Rng},
    number,
};
use sciparse::dataplane_path::standard::mac::algo::calculate_hop_mac;

const CASES: u64 = 200_000;
const KEPT: usize = 4096;
const CALLS: usize = 16_384;
const BATCHES: usize = 200;
const JOURNEYS: [[usize; 3]; 6] = [
    [2, 0, 0],
    [2, 2, 0],
    [4, 4, 0],
    [6, 5, 5],
    [16, 16, 0],
    [22, 21, 21],
];

fn main() {
    for portable_only in [false, true] {
        aes::set_portable_only(portable_only);
        let kind = if aes::has_instructions() {
            "AES instructions"
        } else {
            "portable AES"
        };
        println!("ns a call; the Rust with {kind}, Rattle with portable AES");
        println!("{:<24}{:>8}{:>8}{:>8}", "", "Rattle", "Rust", "ratio");
        let key = [7; 16];
        for size in [16, 64, 1024] {
            let message = vec![1; size];
            report(
                &format!("AES-CMAC, {size} bytes"),
                CALLS,
                &mut |_| {
                    black_box(archive::aes_cmac(&key, black_box(&message)));
                },
                &mut |_| {
                    let mut mac = Cmac::<aes::Aes128>::new(&key);
                    mac.update(black_box(&message));
                    black_box(mac.finalize().into_bytes());
                },
            );
        }
        report(
            "hop MAC",
            CALLS,
            &mut |turn| {
                black_box(archive::hop_mac(turn as u16, 1000, 63, 1, 2, &key));
            },
            &mut |turn| {
                black_box(calculate_hop_mac(turn as u16, 1000, 63, 1, 2, &key));
            },
        );
        for (call, answer) in [
            (Call::Step, number::FORWARD_NEXT_HOP),
            (Call::Ingress, number::CONTINUE_EGRESS),
            (Call::Egress, number::FORWARD_NEXT_HOP),
        ] {
            for ignore_macs in [false, true] {
                let macs = if ignore_macs { ", MACs ignored" } else { "" };
                time(
                    &format!("{}{macs}", call.name()),
                    &kept(call, answer, ignore_macs),
                    archive::run,
                );
            }
        }
        let mut cases = kept(Call::Step, number::FORWARD_NEXT_HOP, false);
        cases.retain(|case| !has_p(&case.path));
        time("step, second edition", &cases, |case, path| {
            archive::run_in_edition(true, case, path)
        });
        for lengths in JOURNEYS {
            journey(lengths);
        }
    }
    for (call, answer) in [
        (Call::Reverse, number::REVERSED),
        (Call::Expiration, number::EXPIRATION),
    ] {
        time(call.name(), &kept(call, answer, false), archive::run);
    }
}

/// Cases that a call answers so.
fn kept(call: Call, answer: u16, ignore_macs: bool) -> Vec<Case> {
    let mut cases = Vec::new();
    inputs::rounds(("", arrivals::round), 1, CASES, &mut |case| {
        if case.call == call && cases.len() < KEPT {
            let mut case = case.clone();
            case.ignore_macs = ignore_macs;
            if case.run(&mut case.path.clone()).number == answer {
                cases.push(case);
            }
        }
    });
    cases
}

type Side = fn(&Case, &mut [u8]) -> Answer;

fn time(name: &str, cases: &[Case], rattle: Side) {
    let run = |side: Side| {
        let mut path = Vec::new();
        move |turn: usize| {
            let case = &cases[turn % cases.len()];
            path.clear();
            path.extend(&case.path);
            black_box(side(case, &mut path));
        }
    };
    report(name, CALLS, &mut run(rattle), &mut run(Case::run));
}

fn journey(lengths: [usize; 3]) {
    let call = plans::passed_call(&mut Rng::new(1), lengths);
    let stations = plans::stations(&call.itinerary);
    let hops: usize = lengths.iter().sum();
    report(
        &format!("journey, {hops} hops"),
        CALLS / 256,
        &mut |_| {
            black_box(archive::check_journey(
                &call.path,
                &call.itinerary,
                call.earliest,
                call.latest,
            ));
        },
        &mut |_| {
            for reading in [call.earliest, call.latest] {
                let readings = vec![reading; stations.len()];
                assert!(plans::arrives(&call.path, &stations, &readings));
            }
        },
    );
}

fn report(name: &str, calls: usize, rattle: &mut dyn FnMut(usize), rust: &mut dyn FnMut(usize)) {
    let (mut least_rattle, mut least_rust) = (f64::INFINITY, f64::INFINITY);
    for _ in 0..BATCHES {
        least_rattle = least_rattle.min(batch(calls, rattle));
        least_rust = least_rust.min(batch(calls, rust));
    }
    println!(
        "{name:<24}{least_rattle:>8.0}{least_rust:>8.0}{:>8.2}",
        least_rattle / least_rust
    );
}

fn batch(calls: usize, call: &mut dyn FnMut(usize)) -> f64 {
    let start = Instant::now();
    for turn in 0..calls {
        call(turn);
    }
    start.elapsed().as_nanos() as f64 / calls as f64
}
