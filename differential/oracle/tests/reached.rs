//! The inputs reach every answer of every call, and are the same for the same seed.

use oracle::{Call, Case, counts::Counts, inputs};

/// The answers that a call can give where the Rust is compared.
fn answers(call: Call) -> &'static [u16] {
    match call {
        Call::Step => &[
            2, 3, 5, 6, 7, 8, 9, 10, 11, 12, 13, 14, 15, 16, 17, 18, 101, 102, 103, 104,
        ],
        Call::Ingress => &[
            2, 3, 5, 6, 7, 8, 9, 10, 11, 12, 13, 14, 15, 16, 100, 102, 103,
        ],
        Call::Egress => &[2, 3, 5, 7, 8, 10, 11, 12, 18, 19, 101, 104],
        Call::Reverse => &[2, 3, 20, 21, 22, 110],
        Call::Expiration => &[2, 3, 111],
    }
}

fn count(counts: &mut Counts, case: &Case) {
    if case.beyond_the_rust().is_none() {
        let mut path = case.path.clone();
        counts.add(case.call, case.run(&mut path).number);
    }
}

#[test]
fn every_answer_and_no_other() {
    let mut counts = Counts::default();
    for (seed, family) in inputs::FAMILIES.into_iter().enumerate() {
        inputs::rounds(family, seed as u64, 100_000, &mut |case| {
            count(&mut counts, case)
        });
    }
    inputs::lengths::needed_sizes(5, 1024, &mut |case| count(&mut counts, case));
    inputs::lengths::places(6, 5, 1024, &mut |case| count(&mut counts, case));
    println!("{counts}");
    for call in Call::ALL {
        for number in 0..200 {
            let reached = counts.get(call, number) != 0;
            let expected = answers(call).contains(&number);
            assert_eq!(reached, expected, "{call:?} {number}");
        }
    }
}

#[test]
fn the_same_for_the_same_seed() {
    for family in inputs::FAMILIES {
        let collect = |seed| {
            let mut cases = Vec::new();
            inputs::rounds(family, seed, 1000, &mut |case| cases.push(case.clone()));
            cases
        };
        assert_eq!(collect(1), collect(1));
        assert_ne!(collect(1), collect(2));
    }
}

/// Tables of every size, and every pair of states.
#[test]
fn tables_of_every_kind() {
    let mut sizes = [false; 257];
    let mut pairs = [false; 64];
    let (_, round) = inputs::FAMILIES[4];
    inputs::rounds(("tables", round), 1, 5000, &mut |case| {
        sizes[case.ids.len()] = true;
        if let [first, second] = case.states[..] {
            pairs[(8 * first + second) as usize] = true;
        }
    });
    assert!(sizes.iter().chain(&pairs).all(|seen| *seen));
}
