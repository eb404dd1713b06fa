//! Each number of a refusal as an operator meets it: the call, the answer, its question and what to do, as stored.

mod common;

use common::json::parse;
use common::{expect, Folder};

const GOOD: &str = include_str!("../../../examples/site/good.txt");

/// The station of hall A, as the options of a step.
const HALL_A: &str =
    "--table 1:parent:up --key 30a1f2c4b5d697e8091a2b3c4d5e6f70 --interface 0 --now 2026-11-16T06:05:00Z";

/// The station of the core, where the segments change.
const CORE: &str = "--key 31b2e3d4c5f6a7980a1b2c3d4e5f6071 --interface 11 --now 2026-11-16T06:05:00Z";

const READINGS: &str = "--earliest 2026-11-16T06:05:00Z --latest 2026-11-16T11:00:00Z";

/// Number, what is changed in good.txt (from, to), the calls behind signing it. The last call answers with the number.
fn cases() -> Vec<(u64, &'static str, &'static str, Vec<String>)> {
    let first = |call: &str| vec![format!("{call} {HALL_A}")];
    // The core gets what hall A sends.
    let core = |call: &str, table: &str| {
        vec![
            format!("step path {HALL_A} --write at-core --ignore-macs"),
            format!("{call} at-core --table {table} {CORE}"),
        ]
    };
    let (links, out) = ("11:child:up,12:child:up,13:child:down", "hop in 0 out 12 lasts 6h");
    let journey = || vec![format!("journey path site.plan {READINGS}")];
    let only = |call: &str| vec![call.to_string()];
    vec![
        (
            1,
            "",
            "",
            vec![format!("step path --table 3:parent:up,1:child:up {CORE}")],
        ),
        (2, "", "", only("expiration short.hex")),
        (3, "", "", only("show cut.path")),
        (4, "", "", only("show long.path")),
        (5, "curr_hf 0", "curr_hf 5", first("step path")),
        (6, "    hop in 11 out 0 lasts 6h\n", "", first("step path")),
        (7, "curr_inf 0", "curr_inf 1", first("step path")),
        (8, "", "", first("step gap.hex")),
        (9, "hop in 11 out 0", "hop in 14 out 0", core("step", links)),
        (10, "06:00:00Z", "07:00:00Z", first("step path")),
        (
            11,
            "out 1 lasts 6h",
            "out 1 lasts 1m",
            first("step path")
                .into_iter()
                .map(|call| call.replace("06:05", "06:06"))
                .collect(),
        ),
        (
            12,
            "out 1 lasts 6h",
            "out 1 lasts 6h mac 0123456789ab",
            first("step path"),
        ),
        (
            13,
            out,
            "hop in 0 out 12 lasts 6h alert ingress",
            core("ingress", links),
        ),
        (14, "", "", core("step", "12:child:up")),
        (15, "", "", core("step", "11:child:up")),
        (16, "", "", core("step", "11:parent:up,12:child:up")),
        (17, out, "hop in 0 out 13 lasts 6h", core("step", links)),
        (18, "curr_hf 0", "curr_hf 1", first("egress path")),
        (
            19,
            "",
            "",
            first("egress path")
                .into_iter()
                .map(|call| call.replace("--interface 0", "--interface 2"))
                .collect(),
        ),
        (20, "# Up", "segment none\n# Up", only("reverse path")),
        (21, "curr_hf 0", "curr_hf 5", only("reverse path")),
        (22, "curr_inf 0", "curr_inf 2", only("reverse path")),
        (23, "    hop in 31 out 0 lasts 6h\n", "", journey()),
        (24, "curr_hf 0", "curr_hf 1", journey()),
        (
            25,
            "hop in 21 out 22 lasts 6h",
            "hop in 21 out 22 lasts 6h alert egress",
            journey(),
        ),
        (
            28,
            "cons_dir no\n",
            "cons_dir no\n    peering yes\n",
            first("step path --edition 2"),
        ),
    ]
}

fn folder_for(from: &str, to: &str) -> Folder {
    let folder = Folder::with_site();
    assert!(from.is_empty() || GOOD.contains(from), "{from}");
    let text = if from.is_empty() {
        GOOD.into()
    } else {
        GOOD.replace(from, to)
    };
    folder.write("path.txt", text);
    assert!(folder.run("sign path.txt --plan site.plan -o path").status < 2);
    folder.write("short.hex", "0000 30\n");
    folder.write("cut.path", &folder.read("good.path")[..70]);
    let mut long = vec![0; 808];
    long[..4].copy_from_slice(&[0, 1, 0x65, 0x56]);
    folder.write("long.path", long);
    // Two segments at the second and third place, the path standing at the end of the first of them.
    let mut gap = folder.read("good.path");
    gap[..4].copy_from_slice(&[0x41, 0, 0, 0x83]);
    folder.write("gap.hex", common::to_hex(&gap));
    folder
}

/// The library's list grows with its refusals.
#[test]
fn each_refusal_of_the_library_has_a_case() {
    let numbers: Vec<u64> = standard_path::REFUSALS.iter().map(|&number| number.into()).collect();
    assert_eq!(cases().iter().map(|case| case.0).collect::<Vec<_>>(), numbers);
}

#[test]
fn each_number_is_shown_with_its_sentence() {
    for (number, from, to, calls) in cases() {
        let folder = folder_for(from, to);
        let (last, before) = calls.split_last().unwrap();
        for call in before {
            assert!(folder.run(call).status < 2, "{number}: {call}");
        }
        let answer = parse(&folder.run(&format!("{last} --json")).out);
        assert_eq!(answer.number("number"), Some(number), "{last}: {answer:?}");
        let ran = folder.run(last);
        assert_eq!((ran.status, &ran.err[..]), (1, ""), "{number}");
        for part in ["question", "means", "what_to_do"] {
            assert!(ran.out.contains(answer.text(part)), "{number}: {part}");
        }
        expect(
            &format!("number-{number:02}.txt"),
            &format!("$ rehearse {last}\n{}", ran.out),
        );
    }
}
