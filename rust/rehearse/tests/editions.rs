//! The two editions: what `--edition 2` makes of P, and that nothing changes without it.

mod common;

use common::json::{parse, Value};
use common::{expect, Folder, HALL_A, READINGS};

const AT: &str = "--now 2026-11-16T06:05:00Z";

/// The interfaces that hop `at` of so many comes in by and goes out by, 0 at the path's ends.
fn ways(at: usize, hops: usize) -> [usize; 2] {
    let into = if at == 0 { 0 } else { 10 * at + 1 };
    let out = if at + 1 == hops { 0 } else { 10 * at + 2 };
    [into, out]
}

/// A plan with a station for each hop, in order or in reverse order.
fn plan(hops: usize, is_reverse: bool) -> String {
    let station = |at: usize| {
        let [into, out] = ways(at, hops);
        let arrival = if is_reverse { out } else { into };
        let interfaces = [into, out].into_iter().filter(|&number| number != 0);
        let interfaces: String = interfaces
            .map(|number| format!("interface {number} peer up\n"))
            .collect();
        format!("station\narrival {arrival}\nkey 000102030405060708090a0b0c0d0e{at:02x}\n{interfaces}")
    };
    match is_reverse {
        true => (0..hops).rev().map(station).collect(),
        false => (0..hops).map(station).collect(),
    }
}

/// A path of these segments: how many hops each has, whether it goes in construction direction, and whether it has P.
fn path(segments: &[(usize, bool, bool)]) -> String {
    let hops: usize = segments.iter().map(|segment| segment.0).sum();
    let yes = |flag: bool| if flag { "yes" } else { "no" };
    let (mut text, mut first) = (String::new(), 0);
    for &(length, cons_dir, peering) in segments {
        let (cons_dir, peering) = (yes(cons_dir), yes(peering));
        text += &format!(
            "segment\ncons_dir {cons_dir}\npeering {peering}\nbeta {:04x}\n",
            0x7a11 + first
        );
        text += "timestamp 2026-11-16T06:00:00Z\n";
        for [into, out] in (first..first + length).map(|at| ways(at, hops)) {
            text += &format!("hop in {into} out {out} lasts 6h\n");
        }
        first += length;
    }
    text
}

const DIRECTIONS: [[bool; 2]; 4] = [[false, false], [false, true], [true, false], [true, true]];

/// A folder with a peering path, its plan, and the path signed by each edition.
fn signed(lengths: [usize; 2], directions: [bool; 2]) -> Folder {
    let folder = Folder::new();
    let [first, second] = [0, 1].map(|at| (lengths[at], directions[at], true));
    folder.write("text", path(&[first, second]));
    folder.write("plan", plan(lengths.iter().sum(), false));
    let ran = folder.run("sign text --plan plan --edition 2 -o path");
    assert_eq!((ran.status, &ran.err[..]), (0, ""), "{lengths:?} {directions:?}");
    assert!(folder.run("sign text --plan plan -o path-1").status < 2);
    folder
}

fn all_forms() -> impl Iterator<Item = ([usize; 2], [bool; 2])> {
    let lengths = [[1, 1], [2, 2], [3, 1], [1, 3], [4, 5], [32, 32], [63, 1]];
    lengths
        .into_iter()
        .flat_map(|lengths| DIRECTIONS.map(|directions| (lengths, directions)))
}

/// The whole step at a station, which takes the path on.
fn step(folder: &Folder, station: usize, edition: &str) -> Value {
    let call = format!("step path --plan plan --station {station} {AT} --write next --json {edition}");
    let ran = folder.run(&call);
    folder.write("path", folder.read("next"));
    parse(&ran.out)
}

#[test]
fn sign_makes_peering_paths_that_pass_in_the_second_edition() {
    for (lengths, directions) in all_forms() {
        let folder = signed(lengths, directions);
        let passed = folder.run(&format!("journey path plan {READINGS} --edition 2"));
        assert_eq!(passed.status, 0, "{lengths:?} {directions:?}: {}", passed.out);
        assert!(!passed.out.contains("not asked"), "{}", passed.out);
        // One signed by the first edition has a station too few, and its peering hops are in the chain.
        let other = folder.run(&format!("journey path-1 plan {READINGS} --edition 2"));
        assert!(other.status == 1 && other.out.contains("number 12"), "{}", other.out);
        assert!(other.out.contains("signed with `--edition 2`"), "{}", other.out);
    }
}

#[test]
fn the_first_edition_turns_peering_paths_down_and_names_the_second() {
    for (lengths, directions) in all_forms() {
        let folder = signed(lengths, directions);
        let answer = parse(&folder.run(&format!("journey path plan {READINGS} --json")).out);
        assert_eq!(answer.number("number"), Some(23), "{lengths:?}");
        assert!(answer.text("what_to_do").contains("`--edition 2`"), "{answer:?}");
        assert!(answer.texts("seen").iter().any(|seen| seen.contains("`--edition 2`")));

        // Station by station it comes as far as the link.
        let mut answers = (0..lengths[0]).map(|station| step(&folder, station, ""));
        let answer = answers.find(|answer| answer.text("answer") != "forwarded").unwrap();
        assert_eq!(answer.number("number") == Some(6), lengths[0] == 1, "{answer:?}");
        assert!(answer.text("what_to_do").contains("`--edition 2`"), "{answer:?}");
    }
}

/// A path is walked from station to station and turned around: P stays, and it comes home over the same stations.
#[test]
fn a_delivered_peering_path_keeps_p_and_comes_home() {
    for (lengths, directions) in all_forms() {
        let (folder, hops) = (signed(lengths, directions), lengths.iter().sum::<usize>());
        for station in 0..hops {
            let word = if station + 1 < hops { "forwarded" } else { "delivered" };
            let answer = step(&folder, station, "--edition 2");
            assert_eq!(answer.text("answer"), word, "{lengths:?} {directions:?} {station}");
        }
        for edition in ["", "--edition 1", "--edition 2"] {
            let ran = folder.run(&format!("reverse path --write back {edition}"));
            assert_eq!((ran.status, &ran.err[..]), (0, ""));
            assert!(folder.read("back")[4] & 2 != 0 && folder.read("back")[12] & 2 != 0);
        }
        folder.write("back-plan", plan(hops, true));
        let ran = folder.run(&format!("journey back back-plan {READINGS} --edition 2"));
        assert_eq!(ran.status, 0, "{lengths:?} {directions:?}: {}", ran.out);
    }
}

/// Ingress changes no segment at a peering hop, and egress at the first moves both indices.
#[test]
fn the_halves_of_a_step_follow_the_edition() {
    let folder = signed([1, 2], [true, true]);
    let ingress = folder.run(&format!(
        "ingress path --plan plan --station 0 {AT} --edition 2 --write left"
    ));
    assert!(ingress.out.starts_with("goes on, number 100"), "{}", ingress.out);
    assert!(ingress.out.contains("no byte of the path"), "{}", ingress.out);
    let egress = format!("egress left --plan plan --station 0 --interface 2 {AT}");
    let moved = folder.run(&format!("{egress} --edition 2"));
    assert!(moved.out.starts_with("forwarded, number 101"), "{}", moved.out);
    assert!(
        moved
            .out
            .contains("changed      1 byte of the path\n        byte 0    00 -> 41"),
        "{}",
        moved.out
    );
    let answer = parse(&folder.run(&format!("{egress} --json")).out);
    assert_eq!(answer.number("number"), Some(18));
    assert!(answer.text("what_to_do").ends_with("take `--edition 2`."), "{answer:?}");

    // The second peering hop is a station's own, and no segment changes there.
    let wrong = format!("ingress next --plan plan --station 1 --interface 7 {AT} --edition 2 --json");
    folder.run(&format!("{egress} --edition 2 --write next"));
    let answer = parse(&folder.run(&wrong).out);
    assert_eq!(answer.number("number"), Some(9));
    assert!(answer.text("means").contains("than the hop names"), "{answer:?}");
}

/// P where no peering path has it: 28 wherever the second edition is asked, and as before in the first.
#[test]
fn p_on_another_path_is_28() {
    for segments in [
        &[(2, false, true)][..],
        &[(2, false, true), (2, true, false)],
        &[(2, false, false), (2, true, true)],
        &[(2, false, true), (2, true, true), (2, true, true)],
        &[(2, false, false), (2, true, false), (2, true, true)],
    ] {
        let folder = Folder::new();
        let hops: usize = segments.iter().map(|segment| segment.0).sum();
        folder.write("text", path(segments));
        folder.write("plan", plan(hops + 1 - segments.len(), false));
        let sign = folder.run("sign text --plan plan --edition 2 -o path");
        assert!(sign.status == 1 && sign.err.contains("turns this header down: refused, number 28"));
        assert_eq!(folder.run("sign text --plan plan -o path-1").status, 0);
        assert!(folder.read("path") == folder.read("path-1"), "{segments:?}");
        let station = format!("--plan plan --station 0 {AT}");
        for call in [
            "show path".to_string(),
            format!("step path {station}"),
            format!("ingress path {station}"),
            format!("egress path {station} --interface 2"),
        ] {
            let answer = parse(&folder.run(&format!("{call} --json --edition 2")).out);
            assert_eq!(answer.number("number"), Some(28), "{call}");
            assert_eq!(answer.get("scmp"), Some(&Value::Null), "{call}");
            assert_eq!(folder.run(&call).status, 0, "{call}");
        }
        let answer = parse(
            &folder
                .run(&format!("journey path plan {READINGS} --json --edition 2"))
                .out,
        );
        let stop = answer.get("stops").unwrap();
        assert_eq!((answer.number("number"), stop.number("number")), (Some(121), Some(28)));
        // With another count of stations 23 comes first, and P is seen beside it.
        folder.write("plan", plan(hops + 2, false));
        let answer = parse(
            &folder
                .run(&format!("journey path plan {READINGS} --json --edition 2"))
                .out,
        );
        assert_eq!(answer.number("number"), Some(23));
        assert!(answer
            .texts("seen")
            .contains(&"P is set, and the path is no peering path (28)"));
    }
}

/// With `seg_id`, against construction, a peering hop's MAC can be worked out: it goes into no SegID.
#[test]
fn a_peering_hop_needs_no_mac_with_a_seg_id() {
    let folder = signed([2, 2], [false, true]);
    let text = folder.text("text").replacen("beta 7a11", "seg_id 7a11", 1);
    folder.write("text", &text);
    let ran = folder.run("sign text --plan plan --edition 2 -o path");
    assert_eq!((ran.status, &ran.err[..]), (0, ""));
    assert_eq!(
        folder.run(&format!("journey path plan {READINGS} --edition 2")).status,
        0
    );
    let ran = folder.run("sign text --plan plan -o path");
    assert!(
        ran.status == 2 && ran.err.contains("this hop needs a `mac`"),
        "{}",
        ran.err
    );
}

/// What no question asks for, at the link too.
#[test]
fn an_open_hop_at_the_link_is_named_beside_a_pass() {
    let folder = signed([2, 2], [false, true]);
    folder.write("text", folder.text("text").replace("in 21 out 22", "in 0 out 22"));
    folder.run("sign text --plan plan --edition 2 -o path");
    let plan = folder.text("plan").replace("interface 12 peer", "interface 12 core");
    folder.write("plan", &plan);
    folder.write("core-plan", plan.replace("interface 21 peer", "interface 21 core"));
    let open = "hop 2 has `in 0` at the peering link, so that it is taken from every interface";
    for (plan, link) in [
        (
            "plan",
            "station 1 leaves by interface 12 (core), and station 2 arrives by 21 (peer): the kinds do not go together",
        ),
        (
            "core-plan",
            "station 1 leaves by interface 12 (core) at the peering link, whose kind is peer",
        ),
    ] {
        let answer = parse(
            &folder
                .run(&format!("journey path {plan} {READINGS} --edition 2 --json"))
                .out,
        );
        assert_eq!(answer.texts("not_asked"), [open, link]);
    }
}

/// The calls that take an edition, from the example's files.
fn calls() -> Vec<String> {
    vec![
        "show good.path".into(),
        format!("step good.path {HALL_A} --interface 0 {AT}"),
        format!("ingress good.path {HALL_A} --interface 0 {AT}"),
        format!("egress good.path {HALL_A} --interface 1 {AT}"),
        format!("journey good.path site.plan {READINGS}"),
        format!("journey late.path site.plan {READINGS}"),
        format!("journey --batch list {READINGS}"),
        "reverse good.path".into(),
        "expiration good.path".into(),
        "sign good.txt --plan site.plan -o out.path".into(),
        "sign --show good.path".into(),
    ]
}

#[test]
fn the_first_edition_is_meant_where_none_is_named() {
    let folder = Folder::with_site();
    folder.write("list", "good.path site.plan\nlate.path site.plan\n");
    for call in calls() {
        for call in [call.clone(), format!("{call} --json")] {
            let (none, first) = (folder.run(&call), folder.run(&format!("{call} --edition 1")));
            assert_eq!(
                (none.out, none.err, none.status),
                (first.out, first.err, first.status),
                "{call}"
            );
        }
        // Where no info field has P, the second says the same, and which edition it is.
        let (first, second) = (folder.run(&call), folder.run(&format!("{call} --edition=2")));
        let same: String = second
            .out
            .split_inclusive('\n')
            .filter(|line| !line.contains("    edition "))
            .collect();
        assert_eq!(
            (same, second.err, second.status),
            (first.out, first.err, first.status),
            "{call}"
        );
    }
}

#[test]
fn another_edition_is_a_mistake() {
    let folder = Folder::with_site();
    folder.write("list", "good.path site.plan\n");
    for call in calls() {
        for word in ["0", "3", "12", "second", "02", "+1", "²"] {
            let ran = folder.run(&format!("{call} --edition {word}"));
            let said =
                format!("rehearse: --edition: `{word}` is no edition: write 1, or 2 for the draft's peering rule\n");
            assert_eq!((ran.status, ran.err, ran.out), (2, said, String::new()), "{call}");
        }
        let ran = folder.run(&format!("{call} --edition"));
        assert!(
            ran.status == 2 && ran.err.contains("--edition needs a value behind it"),
            "{}",
            ran.err
        );
        let ran = folder.run(&format!("{call} --edition 1 --edition 2"));
        assert!(
            ran.status == 2 && ran.err.contains("--edition is given twice"),
            "{}",
            ran.err
        );
    }
}

#[test]
fn json_says_the_edition() {
    let folder = Folder::with_site();
    folder.write("list", "good.path site.plan\n");
    for call in calls().iter().filter(|call| !call.contains("--show")) {
        let depends = !call.starts_with("reverse") && !call.starts_with("expiration");
        for (word, number) in [("", 1), ("--edition 1", 1), ("--edition 2", 2)] {
            for line in folder.run(&format!("{call} --json {word}")).out.lines() {
                let edition = parse(line).get("edition").cloned();
                assert_eq!(edition, depends.then_some(Value::Number(number)), "{call} {word}");
            }
        }
    }
    let shown = |edition: &str| parse(&folder.run(&format!("show peering.path --json {edition}")).out);
    let list = |numbers: &[u64]| Value::List(numbers.iter().map(|&number| Value::Number(number)).collect());
    assert_eq!(shown("--edition 2").get("peering_hops"), Some(&list(&[1, 2])));
    assert_eq!(shown("").get("peering_hops"), Some(&list(&[])));
    let mistake = parse(&folder.run("show nope --edition 2 --json").out);
    assert_eq!(mistake.get("edition"), Some(&Value::Null));
}

/// The example's peering path in each edition, alone and in a list, as it stands on the screen.
#[test]
fn the_example_s_peering_path_is_told_as_stored() {
    let folder = Folder::with_site();
    let peering = folder.text("peering.txt");
    folder.write("one.txt", peering.replacen("peering yes", "peering no", 1));
    folder.write(
        "list",
        "peering.path peering-plan.txt\ngood.path site.plan\none.path site.plan\n",
    );
    let mut said = String::new();
    for call in [
        "show peering.path --edition 2",
        "show peering.path",
        "sign peering.txt --plan peering-plan.txt -o first.path",
        "sign one.txt --plan site.plan --edition 2 -o one.path",
    ] {
        said += &folder.transcript(call);
    }
    for edition in ["1", "2"] {
        said += &folder.transcript(&format!(
            "journey peering.path peering-plan.txt {READINGS} --edition {edition}"
        ));
        said += &folder.transcript(&format!(
            "journey peering.path site.plan {READINGS} --edition {edition}"
        ));
        said += &folder.transcript(&format!("journey --batch list {READINGS} --edition {edition}"));
    }
    expect("editions.txt", &said);
}
