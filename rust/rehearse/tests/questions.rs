//! Numbers with more than one question, what is seen in a plan with 23, and the readings of clocks.

mod common;

use common::json::{parse, Value};
use common::{expect, Folder, HALL_A, READINGS};

const AT: &str = "--now 2026-11-16T06:05:00Z";

/// The question printed is the one that was answered no.
#[test]
fn a_number_with_two_questions_says_the_right_one() {
    let folder = Folder::with_site();
    let good = folder.text("good.txt");
    folder.write(
        "end.txt",
        good.replace("curr_hf 0", "curr_hf 4")
            .replace("curr_inf 0", "curr_inf 1"),
    );
    folder.write(
        "past.txt",
        good.replace("curr_hf 0", "curr_hf 5")
            .replace("curr_inf 0", "curr_inf 1"),
    );
    folder.write("none.txt", "path\n");
    for name in ["end", "past", "none"] {
        folder.run(&format!("sign {name}.txt --plan site.plan -o {name}"));
    }
    folder.run(&format!("step good.path {HALL_A} --interface 0 {AT} --write core"));
    let core = "--key 31b2e3d4c5f6a7980a1b2c3d4e5f6071 --interface 11";
    for (call, number, question, advice) in [
        (
            format!("egress end {HALL_A} --interface 0 {AT}"),
            5,
            "Another hop after this one?",
            "before the path's last hop",
        ),
        (
            format!("egress past {HALL_A} --interface 0 {AT}"),
            5,
            "CurrHF below the hop count?",
            "Set CurrHF",
        ),
        (
            format!("step past {HALL_A} --interface 0 {AT}"),
            5,
            "CurrHF below the hop count?",
            "Set CurrHF",
        ),
        (
            format!("step none {HALL_A} --interface 0 {AT}"),
            5,
            "CurrHF below the hop count?",
            "a segment with at least two",
        ),
        (
            format!("step good.path --table 2:parent:up --key 30a1f2c4b5d697e8091a2b3c4d5e6f70 --interface 0 {AT}"),
            15,
            "Egress listed?",
            "the hop's `out`",
        ),
        (
            format!("step core --table 11:child:up {core} {AT}"),
            15,
            "Next travel egress listed?",
            "next segment's first hop",
        ),
        (
            format!("ingress core --table 11:child:up {core} {AT}"),
            15,
            "Next travel egress listed?",
            "next segment's first hop",
        ),
        (
            format!("egress core --table 11:child:up {core} {AT}"),
            18,
            "Segment going on?",
            "Run ingress first",
        ),
        (
            format!("step core --table 12:child:up,11:child:up {core} {AT}"),
            1,
            "Interface table sound?",
            "each state from 0 to 7, at most 256",
        ),
        ("reverse none".into(), 20, "First length not 0?", "used segments first"),
        (
            format!("journey core site.plan {READINGS}"),
            24,
            "CurrHF and CurrINF 0?",
            "have done to its SegIDs",
        ),
    ] {
        let answer = parse(&folder.run(&format!("{call} --json")).out);
        assert_eq!(answer.number("number"), Some(number), "{call}");
        assert_eq!(answer.text("question"), question, "{call}");
        assert!(
            answer.text("what_to_do").contains(advice),
            "{call}: {}",
            answer.text("what_to_do")
        );
        assert!(folder.run(&call).out.contains(&format!("{question} No.")), "{call}");
    }
}

/// Changed into a segment of one hop, the last of the path: the step finds no hop after it.
#[test]
fn the_step_s_own_egress_says_another_hop() {
    let folder = Folder::with_site();
    let good = folder.text("good.txt");
    let text = good
        .replace("    hop in 21 out 22 lasts 6h\n", "")
        .replace("    hop in 31 out 0 lasts 6h\n", "");
    folder.write("one.txt", text);
    folder.run("sign one.txt --plan site.plan -o one");
    folder.run(&format!("step one {HALL_A} --interface 0 {AT} --write core"));
    let core = "--table 11:child:up,12:child:up --key 31b2e3d4c5f6a7980a1b2c3d4e5f6071 --interface 11";
    let answer = parse(&folder.run(&format!("step core {core} {AT} --json")).out);
    assert_eq!(
        (answer.number("number"), answer.text("question")),
        (Some(5), "Another hop after this one?")
    );
    assert_eq!(answer.text("what_to_do"), "Give each segment at least two hops.");
}

/// Over an empty segment in the middle the step takes the next info field as it changes, and does not find one behind that.
#[test]
fn a_gap_in_the_middle_is_read_as_the_step_reads_it() {
    let folder = Folder::with_site();
    let good = folder
        .text("good.txt")
        .replace("# Down from", "segment none\n# Down from");
    folder.write("gap.txt", good.replace("out 12 lasts 6h", "out 12 lasts 1m"));
    assert_eq!(folder.run("sign gap.txt --plan site.plan -o gap.path").status, 0);
    let shown = folder.run("show gap.path");
    assert!(shown
        .out
        .contains("segment 2: info field 1 (bytes 12 to 19), hops 2 to 4\n    gap          an empty segment"));
    let step = |station: u8, now: &str| {
        format!("step at-{station} --plan site.plan --station {station} --now 2026-11-16T{now}Z")
    };
    folder.write("at-0", folder.read("gap.path"));
    folder.run(&format!("{} --write at-1", step(0, "06:05:00")));
    let ran = folder.run(&step(1, "06:08:00"));
    assert!(ran.out.starts_with("refused, number 11: hop 2: "), "{}", ran.out);
    assert!(
        ran.out
            .contains("    hop 2        in 0, out 12; ends 2026-11-16T06:05:37Z (ExpTime 0)"),
        "{}",
        ran.out
    );
    let ran = folder.run(&step(1, "06:05:00"));
    assert!(ran.out.starts_with("refused, number 7: "), "{}", ran.out);
    assert!(
        ran.out
            .contains("what to do   Leave no empty segment before a used one"),
        "{}",
        ran.out
    );
    // Number 12 behind a gap: signing again does not help.
    folder.write(
        "first.txt",
        good.replace("segment none\n", "")
            .replacen("segment\n", "segment none\nsegment\n", 1)
            .replace("curr_inf 0", "curr_inf 1"),
    );
    folder.run("sign first.txt --plan site.plan -o first");
    let ran = folder.run(&format!("step first {HALL_A} --interface 0 {AT}"));
    assert!(
        ran.out.contains("number 12: ") && ran.out.contains("what to do   Leave no empty segment"),
        "{}",
        ran.out
    );
}

/// What a no means, and what to do, where the whole step and a journey come to a question otherwise than a half alone.
#[test]
fn the_advice_fits_the_call() {
    let folder = Folder::with_site();
    let good = folder.text("good.txt");
    let (up, down) = good.split_at(good.find("# Down").unwrap());
    let one_hop = "segment\n cons_dir yes\n timestamp 2026-11-16T06:00:00Z\n hop in 0 out 12 lasts 6h\n";
    for (name, text) in [
        (
            "empty-first",
            format!("segment none\n{}", &up[up.find("segment").unwrap()..]),
        ),
        ("empty-middle", format!("{up}segment none\n{down}")),
        ("one-middle", format!("{up}{one_hop}{down}")),
        ("in-0", good.replace("hop in 11 out 0", "hop in 0 out 0")),
        ("next-out-0", good.replace("hop in 0 out 12", "hop in 0 out 0")),
        ("out-0", good.replace("hop in 0 out 1 ", "hop in 0 out 0 ")),
        (
            "kept",
            good.replace("in 21 out 22 lasts 6h", "in 21 out 22 lasts 6h mac 0123456789ab"),
        ),
    ] {
        folder.write(&format!("{name}.txt"), text);
        folder.run(&format!("sign {name}.txt --plan site.plan -o {name}"));
    }
    let plan = folder.text("plan.txt");
    let first_two = &plan[..plan.find("# 2:").unwrap()];
    folder.write("two", first_two);
    for (path, plan, number, advice) in [
        ("empty-first", "two", 7, "Leave no empty segment before a used one, and"),
        (
            "empty-middle",
            "plan.txt",
            7,
            "Leave no empty segment before a used one, and",
        ),
        ("one-middle", "plan.txt", 18, "Give each segment at least two hops."),
        (
            "in-0",
            "plan.txt",
            14,
            "the `in` of the segment's last, and sign again.",
        ),
        (
            "next-out-0",
            "plan.txt",
            15,
            "the `out` of the next segment's first, and sign again.",
        ),
        (
            "out-0",
            "plan.txt",
            15,
            "check the order of the hops and their `out`, and sign again.",
        ),
        ("kept", "plan.txt", 12, "its hops without `mac`."),
    ] {
        let answer = parse(&folder.run(&format!("journey {path} {plan} {READINGS} --json")).out);
        let stop = answer.get("stops").unwrap();
        assert_eq!(stop.number("number"), Some(number), "{path}");
        assert!(stop.text("what_to_do").contains(advice), "{path}: {stop:?}");
        // The station's own step says the same, and so does no step for another number.
        if number != 12 {
            let station = stop.number("station").unwrap();
            for before in 0..station {
                let from = if before == 0 {
                    path.to_string()
                } else {
                    format!("at-{before}")
                };
                let write = format!(
                    "step {from} --plan {plan} --station {before} {AT} --write at-{}",
                    before + 1
                );
                assert_eq!(folder.run(&write).status, 0, "{write}");
            }
            let from = if station == 0 {
                path.to_string()
            } else {
                format!("at-{station}")
            };
            let ran = folder.run(&format!("step {from} --plan {plan} --station {station} {AT}"));
            assert!(ran.out.contains(stop.text("what_to_do")), "{path}: {}", ran.out);
        }
        let ran = folder.run(&format!("journey {path} {plan} {READINGS}"));
        assert!(ran.out.contains(stop.text("what_to_do")), "{path}: {}", ran.out);
    }
    // Egress of a path that has not been through ingress: the SegID is not yet the hop's.
    folder.write(
        "up",
        format!("{up}    hop in 21 out 0 lasts 6h\n").replace("hop in 11 out 0", "hop in 11 out 12"),
    );
    folder.run("sign up --plan site.plan -o up.path");
    folder.run(&format!("step up.path {HALL_A} --interface 0 {AT} --write at-core"));
    let core = "--table 11:child:up,12:child:up --key 31b2e3d4c5f6a7980a1b2c3d4e5f6071";
    let answer = parse(
        &folder
            .run(&format!("egress at-core {core} --interface 12 {AT} --json"))
            .out,
    );
    assert_eq!(answer.number("number"), Some(12));
    assert!(answer.text("what_to_do").contains("take the path as ingress left it"));
    assert_eq!(
        folder
            .run(&format!("ingress at-core {core} --interface 11 {AT} --write inside"))
            .status,
        0
    );
    assert_eq!(
        folder.run(&format!("egress inside {core} --interface 12 {AT}")).status,
        0
    );
    let wrong = "--table 11:child:up --key 00000000000000000000000000000000";
    let answer = parse(
        &folder
            .run(&format!("ingress at-core {wrong} --interface 11 {AT} --json"))
            .out,
    );
    assert!(answer
        .text("what_to_do")
        .contains("as the station before it forwarded it"));
    // Egress in the segment of one hop that ingress has changed to.
    folder.run(&format!("step one-middle {HALL_A} --interface 0 {AT} --write at-core"));
    folder.run(&format!("ingress at-core {core} --interface 11 {AT} --write inside"));
    let answer = parse(
        &folder
            .run(&format!("egress inside {core} --interface 12 {AT} --json"))
            .out,
    );
    assert_eq!(
        (answer.number("number"), answer.text("what_to_do")),
        (Some(18), "Give each segment at least two hops.")
    );
}

/// The hops that a refusal is about are shown as they were given: both of a segment change, else the one that is named.
#[test]
fn a_refusal_shows_its_hops() {
    let folder = Folder::with_site();
    let good = folder.text("good.txt");
    folder.write(
        "alert.txt",
        good.replace("in 0 out 12 lasts 6h", "in 0 out 12 lasts 6h alert ingress"),
    );
    folder.run("sign alert.txt --plan site.plan -o alert");
    folder.run(&format!("step alert {HALL_A} --interface 0 {AT} --write core"));
    let core = "--table 11:child:up,12:child:up --key 31b2e3d4c5f6a7980a1b2c3d4e5f6071 --interface 11";
    let ran = folder.run(&format!("step core {core} {AT}"));
    assert!(ran.out.starts_with("refused, number 13: "), "{}", ran.out);
    for part in [
        "    hop 1        in 11, out 0; ends 2026-11-16T12:00:00Z (ExpTime 63); no alert\n                 of a segment with \
         timestamp 2026-11-16T06:00:00Z (1794808800), C clear\n",
        "    hop 2        in 0, out 12; ends 2026-11-16T12:00:00Z (ExpTime 63); ingress alert\n",
    ] {
        assert!(ran.out.contains(part), "{}", ran.out);
    }
    let hops = |call: &str| -> Vec<u64> {
        match parse(&folder.run(call).out).get("named_hops") {
            Some(Value::List(hops)) => hops.iter().filter_map(|hop| hop.number("index")).collect(),
            other => panic!("{other:?}"),
        }
    };
    assert_eq!(hops(&format!("step core {core} {AT} --json")), [1, 2]);
    assert_eq!(
        hops(&format!(
            "step good.path {HALL_A} --interface 0 --now 2026-11-17 --json"
        )),
        [0]
    );
    // Not at a change it is one, and it is shown as it was given: ingress has cleared the alert by then.
    assert_eq!(
        hops(&format!(
            "step good.path --table 2:parent:up --key 30a1f2c4b5d697e8091a2b3c4d5e6f70 --interface 0 {AT} --json"
        )),
        [0]
    );
    folder.write(
        "asked.txt",
        good.replace("in 11 out 0 lasts 6h", "in 11 out 0 lasts 6h alert ingress"),
    );
    folder.run("sign asked.txt --plan site.plan -o asked");
    folder.run(&format!("step asked {HALL_A} --interface 0 {AT} --write core"));
    let ran = folder.run(&format!("step core {} {AT}", core.replace(",12:child:up", "")));
    assert!(
        ran.out.contains("number 15: ")
            && ran
                .out
                .contains("    hop 1        in 11, out 0; ends 2026-11-16T12:00:00Z (ExpTime 63); ingress alert\n"),
        "{}",
        ran.out
    );
    assert_eq!(
        hops(&format!("step good.path {HALL_A} --interface 0 {AT} --json")),
        Vec::<u64>::new()
    );
}

/// Where the header alone is to blame, `show` has the question as well.
#[test]
fn show_asks_what_the_header_alone_decides() {
    let folder = Folder::with_site();
    let good = folder.read("good.path");
    for (name, byte, number) in [("past", 0x45, 5), ("inf", 0x40, 7), ("start", 0, 0), ("end", 0x44, 0)] {
        let mut path = good.clone();
        path[0] = byte;
        folder.write(name, path);
        let ran = folder.run(&format!("show {name}"));
        assert_eq!(ran.status, i32::from(number != 0), "{name}");
        let headline = if number == 0 {
            "whole: ".into()
        } else {
            format!("refused, number {number}: ")
        };
        assert!(ran.out.starts_with(&headline), "{}", ran.out);
        assert!(ran.out.contains("\nmeta word (bytes 0 to 3)\n"), "{}", ran.out);
        let answer = parse(&folder.run(&format!("show {name} --json")).out);
        assert_eq!(answer.number("number").unwrap_or(0), number, "{name}");
        assert_eq!(answer.number("hops"), Some(5), "{name}");
    }
    folder.write("single.hex", format!("00001000{}", "00".repeat(20)));
    assert!(folder.run("show single.hex").out.starts_with("refused, number 6: "));
    folder.write("gap.hex", format!("00000082{}", "00".repeat(64)));
    assert!(folder.run("show gap.hex").out.starts_with("refused, number 7: "));
    // The scope document's case h, and a header without a hop.
    folder.write("no-info.hex", format!("82002002{}", "00".repeat(64)));
    let ran = folder.run("show no-info.hex");
    assert!(ran.out.starts_with("refused, number 8: "), "{}", ran.out);
    folder.write("none.hex", "00000000");
    for call in [
        "show none.hex".to_string(),
        format!("egress none.hex {HALL_A} --interface 0 {AT}"),
        format!("ingress none.hex {HALL_A} --interface 0 {AT}"),
    ] {
        let ran = folder.run(&call);
        assert!(
            ran.out.contains("number 5: ") && ran.out.contains("No. The path has no hop."),
            "{call}: {}",
            ran.out
        );
        assert!(!ran.out.contains("expires"), "{}", ran.out);
    }
    folder.write(
        "text",
        "segment none\nsegment\ncons_dir yes\ntimestamp 1970-01-02\nhop in 0 out 1 lasts 6h\n",
    );
    assert!(!folder
        .run("sign text --plan site.plan -o first")
        .out
        .contains("expires"));
    assert!(folder
        .run("show first")
        .out
        .contains("segment 1: no info field, hop 0\n"));
}

/// Behind an empty segment, hops are shown with the info field that the step takes for them.
#[test]
fn a_header_with_a_gap_is_shown_as_the_step_reads_it() {
    let folder = Folder::new();
    let hops = |from: u8| {
        (from..from + 4)
            .map(|hop| format!("003f00{hop:02x}00{:02x}000000000000", hop + 10))
            .collect::<String>()
    };
    // Lengths 0, 2, 2 and CurrINF 1; info field 0 with C clear, info field 1 with C set.
    folder.write(
        "gap.hex",
        format!("40000082 00001111000003e8 01002222000007d0 {}", hops(10)),
    );
    let ran = folder.run("show gap.hex");
    assert_eq!(ran.status, 0);
    for lines in [
        "segment 1: info field 1 (bytes 12 to 19), hops 0 to 1\n    C            set: travelled as constructed\n",
        "    hop 0        in 10, out 20; ends ",
        "segment 2: no info field, hops 2 to 3\n    gap          an empty segment stands before it: there the step looks for \
         info field 2, which is not there\n    hop 2        ConsIngress 12, ConsEgress 22; ExpTime 63; no alert\n",
        "info field 0 (bytes 4 to 11): of no segment\n    C            clear: travelled against construction\n",
    ] {
        assert!(ran.out.contains(lines), "{lines}\n{}", ran.out);
    }
    let call = "step gap.hex --table 10:child:up,20:child:up --key 00000000000000000000000000000000 --interface 0 --ignore-macs";
    let answer = parse(&folder.run(&format!("{call} --now 2500 --json")).out);
    let Some(values) = answer.get("values") else { panic!() };
    assert_eq!(values.number("egress_interface"), Some(20));
    let note = "a segment stands behind an empty one: ";
    assert!(folder.run("sign --show gap.hex").err.contains(note));
    folder.write("text", folder.run("sign --show gap.hex").out);
    assert!(folder.run("sign text -o again").err.contains(note));
    folder.write("plan.txt", "station\narrival 0\nkey 000102030405060708090a0b0c0d0e0f\n");
    let ran = folder.run(&format!("journey gap.hex plan.txt {READINGS}"));
    assert!(
        ran.out
            .contains("the path's hops come in by 10, 11 | (segment 2 has no info field)\n"),
        "{}",
        ran.out
    );
    let step =
        "step gap.hex --table 20:child:up --key 00000000000000000000000000000000 --interface 0 --now 1500 --json";
    let answer = parse(&folder.run(step).out);
    let Some(Value::List(hops)) = answer.get("named_hops") else {
        panic!()
    };
    assert_eq!(
        (answer.number("number"), hops[0].number("timestamp")),
        (Some(10), Some(2000))
    );
    // A field that is cut off has the same names as one that is there.
    folder.write("cut.hex", "00002000 0000");
    let cut = parse(&folder.run("show cut.hex --json").out);
    let Some(Value::List(segments)) = cut.get("segments") else {
        panic!()
    };
    assert_eq!(
        (segments[0].number("place"), segments[0].number("timestamp")),
        (Some(0), None)
    );
}

#[test]
fn a_wrong_mac_in_a_journey_says_to_sign_with_its_plan() {
    let folder = Folder::with_site();
    let plan = folder.text("plan.txt");
    folder.write("other.txt", plan.replace("key 30", "key 31"));
    let ran = folder.run(&format!("journey good.path other.txt {READINGS}"));
    assert!(
        ran.out
            .contains("can be signed again with this plan (`rehearse sign TEXT --plan PLAN`), its hops without `mac`."),
        "{}",
        ran.out
    );
}

#[test]
fn what_is_seen_in_a_plan_stands_beside_23() {
    let folder = Folder::with_site();
    let plan = folder.text("plan.txt");
    let mut said = String::new();
    for (name, text) in [
        ("arrival", plan.replace("arrival 21", "arrival 0")),
        ("first", plan.replace("arrival 0", "arrival 1")),
        ("order", plan.replace("interface 12 child up", "interface 10 child up")),
        ("state", plan.replace("interface 13 child down", "interface 13 state 9")),
        ("short", plan[..plan.rfind("station").unwrap()].into()),
        ("twice", plan.replace("interface 12 child up", "interface 11 child up")),
        (
            "many",
            plan.clone()
                + &(32..=287)
                    .map(|number| format!("interface {number} child up\n"))
                    .collect::<String>(),
        ),
    ] {
        folder.write(name, text);
        said += &folder.transcript(&format!("journey good.path {name} {READINGS}"));
    }
    let mut bytes = folder.read("site.plan");
    bytes[31] = 1;
    bytes[32 + 30] = 1;
    folder.write("bytes", bytes);
    said += &folder.transcript(&format!("journey good.path bytes {READINGS}"));
    said += &folder.transcript("journey good.path site.plan --earliest 2026-11-17 --latest 2026-11-16");
    expect("seen.txt", &said);
    assert_eq!(said.matches("refused, number 23").count(), 9);
    for part in [
        "3 stations; the path asks for 4 (hops - infos + 1)",
        "station 2, not the first, arrives by 0",
        "station 0, the first, arrives by 1 and not by 0",
        "station 1 lists interface 11 before 10: not ascending",
        "station 1 lists interface 13 with state 9, above 7",
        "station 1 lists interface 11 twice",
        "station 3 lists 257 interfaces, and 256 is the most",
        "the path's hops come in by 0, 11 | 0, 21, 31",
        "byte 31 of record 0 is not zero",
        "byte 30 of record 1, a station, is not zero",
        "the earliest reading is after the latest",
    ] {
        assert!(said.contains(part), "{part}");
    }
}

/// What is right up to its limit is not called odd.
#[test]
fn what_is_seen_is_true_at_its_limits() {
    let folder = Folder::with_site();
    let plan = folder.text("plan.txt");
    let many: String = (32..=286)
        .map(|number| format!("interface {number} child up\n"))
        .collect();
    folder.write("many", plan.clone() + &many);
    assert_eq!(folder.run(&format!("journey good.path many {READINGS}")).status, 0);
    folder.write("state", plan.replace("interface 13 child down", "interface 13 state 7"));
    assert_eq!(folder.run(&format!("journey good.path state {READINGS}")).status, 0);
    let at = "2026-11-16T06:05:00Z";
    assert_eq!(
        folder
            .run(&format!("journey good.path site.plan --earliest {at} --latest {at}"))
            .status,
        0
    );
    folder.write("state", plan.replace("interface 13 child down", "interface 13 state 8"));
    let ran = folder.run(&format!("journey good.path state {READINGS}"));
    assert!(ran.out.contains("with state 8, above 7"), "{}", ran.out);
    assert!(!ran.out.contains("is after the latest"), "{}", ran.out);
}

#[test]
fn what_no_question_asks_for_stands_beside_a_pass() {
    let folder = Folder::with_site();
    let (plan, good) = (folder.text("plan.txt"), folder.text("good.txt"));
    folder.write(
        "down",
        plan.replace("interface 21 parent up", "interface 21 parent down"),
    );
    folder.write("unlisted", plan.replace("    interface 31 parent up\n", ""));
    folder.write(
        "zero",
        plan.replace("interface 22 child up", "interface 0 child up\n interface 22 child up"),
    );
    folder.write(
        "zero",
        folder.text("zero").replace(
            "interface 21 parent up\n    interface 0 child up\n",
            "interface 0 child up\n    interface 21 parent up\n",
        ),
    );
    folder.write("open.txt", good.replace("in 21 out 22", "in 0 out 0"));
    folder.write("back", plan.replace("interface 22 child up", "interface 22 peer up"));
    folder.write("back.txt", good.replace("in 21 out 22", "in 21 out 21"));
    assert_eq!(folder.run("sign back.txt --plan back -o back.path").status, 0);
    folder.write("kinds", plan.replace("interface 31 parent up", "interface 31 child up"));
    for (name, text) in [
        ("reply", good.replace("in 11 out 0", "in 11 out 14")),
        ("same", good.replace("in 11 out 0", "in 11 out 12")),
        ("peers", good.replacen("cons_dir no", "cons_dir no\n    peering yes", 1)),
    ] {
        folder.write(&format!("{name}.txt"), text);
        assert_eq!(
            folder
                .run(&format!("sign {name}.txt --plan site.plan -o {name}.path"))
                .status,
            0
        );
    }
    folder.write("up.txt", good.replace("cons_dir no", "cons_dir yes"));
    assert_eq!(folder.run("sign up.txt --plan plan.txt -o up.path").status, 0);
    assert_eq!(folder.run("sign open.txt --plan zero -o open.path").status, 0);
    for (path, plan, not_asked) in [
        ("good.path", "site.plan", &[][..]),
        (
            "good.path",
            "down",
            &["station 2 lists interface 21, which the packet arrives by, as down"],
        ),
        (
            "good.path",
            "unlisted",
            &["station 3 does not list interface 31, which the packet arrives by"],
        ),
        (
            "back.path",
            "back",
            &["station 2 sends the packet back by interface 21, which it arrived by"],
        ),
        (
            "good.path",
            "kinds",
            &["station 2 leaves by interface 22 (child), and station 3 arrives by 31 (child): the kinds do not go together"],
        ),
        (
            "reply.path",
            "site.plan",
            &["hop 1 has `out 14` at a segment change: a reply is turned down there (9)"],
        ),
        ("same.path", "site.plan", &[]),
        ("peers.path", "site.plan", &["P is set, which has no meaning in edition 1: `--edition 2` has the draft's peering rule"]),
        (
            "up.path",
            "plan.txt",
            &["station 0 leaves by interface 1 (parent) in a segment with `cons_dir yes`"],
        ),
        (
            "open.path",
            "zero",
            &[
                "hop 3 has `in 0` inside its segment, so that it is taken from every interface",
                "hop 3 has `out 0` inside its segment, so that the packet leaves by an interface 0",
            ],
        ),
    ] {
        let call = format!("journey {path} {plan} {READINGS}");
        let answer = parse(&folder.run(&format!("{call} --json")).out);
        assert_eq!(answer.text("answer"), "passed", "{call}");
        assert_eq!(answer.texts("not_asked"), not_asked, "{call}");
        let ran = folder.run(&call);
        assert_eq!(
            (ran.status, ran.out.contains("    not asked    ")),
            (0, !not_asked.is_empty()),
            "{call}"
        );
    }
}

#[test]
fn a_reading_is_shown_as_a_date_and_a_small_number_is_noted() {
    let folder = Folder::with_site();
    for command in ["step", "ingress", "egress"] {
        let call = format!("{command} good.path {HALL_A} --interface 0 --now 2026");
        let ran = folder.run(&call);
        assert!(
            ran.out.contains("    now          1970-01-01T00:33:46Z (2026)\n"),
            "{}",
            ran.out
        );
        assert_eq!(
            ran.err,
            "rehearse: --now: 2026 is 1970-01-01T00:33:46Z: a number is seconds since 1970\n"
        );
        assert_eq!(
            parse(&folder.run(&format!("{call} --json")).out).number("now"),
            Some(2026)
        );
    }
    folder.write("list", "good.path site.plan\n");
    for call in ["journey good.path site.plan", "journey --batch list"] {
        let ran = folder.run(&format!("{call} --earliest 2026 --latest 1794826800"));
        assert_eq!(
            ran.err,
            "rehearse: --earliest: 2026 is 1970-01-01T00:33:46Z: a number is seconds since 1970\n"
        );
    }
    for (time, why) in [
        ("2026-02-30", "no such day"),
        ("1969-01-01", "before 1970"),
        ("2026-11-16T06:05:00+01:00", "only UTC"),
    ] {
        let ran = folder.run(&format!("step good.path {HALL_A} --interface 0 --now {time}"));
        assert!(ran.status == 2 && ran.err.contains(why), "{}", ran.err);
    }
}

fn names(text: &str) -> Vec<String> {
    match parse(text) {
        Value::Object(members) => members.into_iter().map(|(name, _)| name).collect(),
        other => panic!("{other:?}"),
    }
}

/// Every answer of a command has the same names: answered, refused, and mistaken.
#[test]
fn a_command_s_objects_have_the_same_names() {
    let folder = Folder::with_site();
    folder.write("short", "00");
    folder.write("cut", &folder.read("good.path")[..70]);
    folder.write(
        "list",
        "good.path site.plan\nlate.path site.plan\ngood.path short\nnope site.plan\nalone\n",
    );
    let step = format!("{HALL_A} --interface 0 {AT}");
    for (command, calls) in [
        ("show", &["good.path", "short", "cut", "nope", ""][..]),
        (
            "step",
            &[
                "good.path STEP",
                "good.path STEP --write x",
                "short STEP",
                "nope STEP",
                "good.path",
            ],
        ),
        ("ingress", &["good.path STEP", "short STEP", "nope STEP"]),
        ("egress", &["good.path STEP", "good.path STEP --write x", "nope STEP"]),
        ("reverse", &["good.path", "good.path --write x", "short", "nope"]),
        ("expiration", &["good.path", "short", "nope"]),
        (
            "journey",
            &[
                "good.path site.plan",
                "late.path site.plan",
                "good.path short",
                "nope site.plan",
                "--batch list",
            ],
        ),
        (
            "plan",
            &["plan.txt", "plan.txt -o x", "--show site.plan", "--show short", "nope"],
        ),
        (
            "sign",
            &["good.txt", "good.txt -o x", "--show good.path", "--show cut", "nope"],
        ),
        ("demo", &["", "--write new", "extra"]),
    ] {
        let mut first = None;
        for call in calls {
            let readings = if command == "journey" { READINGS } else { "" };
            let call = format!("{command} {} {readings} --json", call.replace("STEP", &step));
            for line in folder.run(&call).out.lines() {
                let names = names(line);
                assert_eq!(first.get_or_insert_with(|| names.clone()), &names, "{call}");
            }
        }
        assert!(first.is_some(), "{command}");
    }
    let shown = parse(&folder.run("plan --show short --json").out);
    assert_eq!((shown.text("answer"), shown.number("number")), ("refused", Some(23)));
    assert!(
        shown.text("what_to_do").starts_with("Add the hop that the path lacks"),
        "{shown:?}"
    );
    let written = |call: &str| {
        parse(&folder.run(&format!("{call} --json")).out)
            .text("written")
            .to_string()
    };
    assert_eq!(written("plan plan.txt -o out.plan"), "out.plan");
    assert_eq!(written("sign good.txt -o out.path"), "out.path");
    assert_eq!(written("reverse good.path --write back.hex"), "back.hex");
}
