//! What the documents say of the Rust, on the Rust: the smallest inputs of docs/DIFFERENCES.md and the scope's cases.

use oracle::{Call, Case, sizes};

/// An input as docs/DIFFERENCES.md writes it: so many bytes, the meta word, the bytes that are not 0. Unless changed, the
/// packet comes from local hosts at time 0 with MACs ignored, and the table lists 0 alone, a child's link that is up.
fn input(call: Call, size: usize, meta: u32, bytes: &[(usize, &[u8])]) -> Case {
    let mut path = vec![0; size];
    path[..4].copy_from_slice(&meta.to_be_bytes());
    for (at, values) in bytes {
        path[*at..at + values.len()].copy_from_slice(values);
    }
    Case {
        call,
        path,
        ids: vec![0],
        states: vec![6],
        interface: 0,
        now: 0,
        key: [0; 16],
        ignore_macs: true,
    }
}

/// The case answers so, and leaves the path as it was but for these bytes.
#[track_caller]
fn check(case: &Case, answer: &str, left: &[(usize, &[u8])]) {
    let mut expected = case.path.clone();
    for (at, values) in left {
        expected[*at..at + values.len()].copy_from_slice(values);
    }
    let mut path = case.path.clone();
    assert_eq!(case.run(&mut path).to_string(), answer);
    assert_eq!(path, expected);
}

use Call::*;

#[test]
fn expiry() {
    check(&input(Expiration, 24, 0x00001000, &[]), "At 337", &[]);
    let mut case = input(Step, 36, 0x00002000, &[]);
    case.now = 337;
    check(&case, "ForwardNextHop 0", &[(0, &[1])]);
    case.now = 338;
    check(&case, "refused 11 0, SCMP 4 52 0", &[]);
    let capped = input(
        Expiration,
        24,
        0x00001000,
        &[(8, &[0xff, 0xff, 0xfe, 0xaf])],
    );
    check(&capped, "At 4294967295", &[]);
}

#[test]
fn peering_flag_has_no_meaning() {
    for peering in [0, 2] {
        let bytes: [(usize, &[u8]); 3] = [(4, &[peering]), (12, &[peering]), (38, &[0, 1])];
        let mut case = input(Ingress, 68, 0x01002080, &bytes);
        case.interface = 7;
        let left: [(usize, &[u8]); 2] = [(7, &[1]), (0, &[0x42, 0, 0x20, 0x80])];
        check(&case, "ContinueEgress 0", &left);
    }
    let case = input(Step, 44, 0x00001040, &[(4, &[2]), (12, &[2])]);
    check(&case, "refused 6", &[]);
}

#[test]
fn question_9() {
    let mut case = input(Step, 36, 0x00002000, &[]);
    case.interface = 7;
    check(&case, "ForwardNextHop 0", &[(0, &[1])]);
    let case = input(Ingress, 36, 0x00002000, &[(16, &[0, 5])]);
    check(&case, "ContinueEgress 0", &[]);
    let mut case = input(Step, 36, 0x00002000, &[(16, &[0, 5, 0, 1])]);
    case.interface = 7;
    check(&case, "refused 9 0 7 5 0, SCMP 4 50 0", &[(7, &[1])]);
}

#[test]
fn zero_length_before_a_used_one() {
    check(
        &input(Step, 56, 0x00002001, &[]),
        "ForwardNextHop 0",
        &[(0, &[1])],
    );
    check(
        &input(Step, 56, 0x01002001, &[]),
        "refused 7 2 1",
        &[(0, &[0x42])],
    );
    check(&input(Step, 36, 0x40000080, &[]), "refused 8 1", &[]);
    check(
        &input(Expiration, 44, 0x00001001, &[(11, &[1])]),
        "At 338",
        &[],
    );
    check(&input(Expiration, 24, 0x00000040, &[]), "At 0", &[]);
    check(
        &input(Reverse, 44, 0x00001001, &[]),
        "Reversed",
        &[(0, &[1]), (4, &[1]), (12, &[1])],
    );
}

#[test]
fn alerts() {
    let case = input(Step, 68, 0x01002080, &[(32, &[2])]);
    check(&case, "refused 13 1 0, SCMP 4 0 0", &[(0, &[0x42])]);
    let case = input(Step, 36, 0x00002000, &[(12, &[2])]);
    check(&case, "ForwardNextHop 0", &[(0, &[1]), (12, &[0])]);
    let mut case = input(Ingress, 36, 0x00002000, &[(12, &[1])]);
    case.interface = 7;
    check(&case, "ContinueEgress 0", &[(12, &[0])]);
}

#[test]
fn timestamps_links_and_short_paths() {
    let case = input(Step, 36, 0x00002000, &[(11, &[1])]);
    check(&case, "refused 10 0, SCMP 4 48 0", &[]);
    let mut case = input(Step, 68, 0x01002080, &[(47, &[1])]);
    (case.ids, case.states) = (vec![0, 1], vec![2, 7]);
    check(&case, "ForwardNextHop 1", &[(0, &[0x43])]);
    let mut case = input(Step, 36, 0x00002000, &[]);
    case.states = vec![2];
    check(&case, "refused 17 0 0, SCMP 5 0 0", &[]);
    for call in Call::ALL {
        let mut case = input(call, 4, 0x00000001, &[]);
        check(&case, "refused 3", &[]);
        case.path.pop();
        check(&case, "refused 2", &[]);
    }
}

#[test]
fn more_than_64_hops() {
    check(
        &input(Step, 800, 0x0003f080, &[]),
        "ForwardNextHop 0",
        &[(0, &[1])],
    );
    // an index of 64 does not fit; what the Rust's own write then does is not known
    for case in [
        input(Step, 800, 0x7f03e0c0, &[]),
        input(Egress, 800, 0x7f03e0c0, &[]),
        input(Ingress, 820, 0x7f03e082, &[]),
        input(Reverse, 800, 0x0003f080, &[]),
    ] {
        let mut path = case.path.clone();
        let run = std::panic::AssertUnwindSafe(|| case.run(&mut path));
        assert_eq!(
            std::panic::catch_unwind(run).is_err(),
            cfg!(debug_assertions)
        );
    }
    check(
        &input(Step, 788, 0x0003f040, &[]),
        "ForwardNextHop 0",
        &[(0, &[1])],
    );
    check(&input(Egress, 788, 0x7f03f040, &[]), "refused 5 64", &[]);
}

#[test]
fn forms() {
    let mut case = input(Step, 56, 0x41000081, &[]);
    case.ignore_macs = false;
    check(&case, "refused 8 2", &[]);
    check(&input(Step, 24, 0x00001000, &[]), "refused 6", &[]);
    check(&input(Egress, 44, 0x00001040, &[]), "refused 18", &[]);
    let mut case = input(Step, 36, 0x00002000, &[]);
    case.ignore_macs = false;
    let expected = 0x763cbcde81df_u64;
    check(
        &case,
        &format!("refused 12 0 {expected} 0, SCMP 4 51 0"),
        &[],
    );
    check(&input(Reverse, 4, 0, &[]), "refused 20", &[]);
    check(&input(Reverse, 24, 0x01001000, &[]), "refused 21", &[]);
    check(&input(Reverse, 24, 0x40001000, &[]), "refused 22", &[]);
    let left: [(usize, &[u8]); 1] = [(0, &[3, 0, 0x20, 0x40])];
    check(&input(Reverse, 56, 0x03001080, &[]), "refused 21", &left);
}

/// a to l, and those of the scope's last line that are about the Rust.
#[test]
fn the_scopes_cases() {
    assert_eq!(sizes([0, 0, 0]).bytes, 4);
    assert_eq!(sizes([2, 0, 2]).bytes, 68);
    assert_eq!(sizes([22, 21, 21]).bytes, 796);
    assert_eq!(sizes([22, 21, 22]).bytes, 808);
    for (timestamp, exp_time, expiry) in [
        (1000, 0, 1337),
        (1000, 255, 87400),
        (4294967000_u32, 0, 4294967295_u32),
    ] {
        let bytes: [(usize, &[u8]); 2] = [(8, &timestamp.to_be_bytes()), (13, &[exp_time])];
        let case = input(Expiration, 24, 0x00001000, &bytes);
        check(&case, &format!("At {expiry}"), &[]);
    }
    // g: a beta step at ingress from outside, C clear
    let bytes: [(usize, &[u8]); 2] = [(6, &[0x12, 0x34]), (18, &[0xab, 0xcd])];
    let mut case = input(Ingress, 36, 0x00002000, &bytes);
    case.interface = 1;
    check(&case, "ContinueEgress 0", &[(6, &[0xb9, 0xf9])]);
    check(&input(Step, 68, 0x82002002, &[]), "refused 8 2", &[]);
    let mut wrong_mac = input(Step, 68, 0x41000082, &[]);
    wrong_mac.ignore_macs = false;
    check(&wrong_mac, "refused 8 2", &[]);
    check(&input(Step, 24, 0x00001000, &[]), "refused 6", &[]);
    let reversed: [(usize, &[u8]); 3] = [(0, &[0x43, 0, 0x30, 0x80]), (4, &[1]), (12, &[1])];
    check(&input(Reverse, 80, 0x010020c0, &[]), "Reversed", &reversed);
    let lengths: [(usize, &[u8]); 1] = [(0, &[5, 0, 0x30, 0x80])];
    check(&input(Reverse, 80, 0x050020c0, &[]), "refused 21", &lengths);
    check(
        &input(Step, 68, 0x01002002, &[]),
        "refused 7 2 1",
        &[(0, &[0x42])],
    );
    check(
        &input(Step, 56, 0x01002040, &[]),
        "refused 5 3",
        &[(0, &[0x42])],
    );
}
