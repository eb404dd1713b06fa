//! Texts to bytes and back, over many texts and bytes that look random but are the same in every run.

mod common;

use common::json::parse;
use common::{to_hex, Folder, Random};

const KINDS: [&str; 4] = ["core", "parent", "child", "peer"];

/// A plan as `plan --show` prints it, of any numbers, sound or not.
fn any_plan(random: &mut Random) -> String {
    let mut text = String::new();
    for _ in 0..random.below(6) {
        let key = to_hex(&random.bytes(16));
        text += &format!("station\n    arrival {}\n    key {key}\n", random.below(65536));
        for _ in 0..random.below(5) {
            let most = if random.flip() { 5 } else { 65536 };
            let number = random.below(most);
            let state = match random.below(9) {
                0 => format!("state {}", 8 + random.below(248)),
                kind => format!("{} {}", KINDS[kind as usize % 4], if kind > 4 { "up" } else { "down" }),
            };
            text += &format!("    interface {number} {state}\n");
        }
    }
    text
}

#[test]
fn a_plan_s_text_comes_back() {
    let (folder, mut random) = (Folder::new(), Random(1));
    for _ in 0..200 {
        let text = any_plan(&mut random);
        folder.write("text", &text);
        let shown = {
            let (written, hex) = (folder.run("plan text -o plan"), folder.run("plan text -o plan.hex"));
            let shown = folder.run("plan --show plan");
            assert_eq!((written.status, hex.status), (shown.status, shown.status), "{text}");
            shown
        };
        let lines = shown.out.lines().filter(|line| !line.starts_with('#'));
        assert_eq!(lines.map(|line| format!("{line}\n")).collect::<String>(), text);
        // A comment says that question 23 turns it down, and the status says the same.
        assert_eq!(
            shown.status,
            i32::from(shown.out.starts_with("# question 23")),
            "{}",
            shown.out
        );
        assert!(!shown.out.contains("laid out otherwise"), "{}", shown.out);
        assert_eq!(folder.run("plan --show plan.hex").out, shown.out);
        // An empty file is a plan of no bytes.
        if !text.is_empty() {
            assert_eq!(folder.run("plan --show text").out, shown.out);
        }
    }
}

#[test]
fn bytes_of_any_kind_are_shown_as_a_plan() {
    let (folder, mut random) = (Folder::new(), Random(2));
    for _ in 0..300 {
        // Records that mostly lead to records: loops, both ways, past the end.
        let records = 1 + random.below(12);
        let mut plan = random.bytes(32 * records as usize);
        for record in plan.chunks_mut(32) {
            let [next, first] = [random.below(records + 1), random.below(records + 1)];
            record[..2].copy_from_slice(&(next as u16).to_be_bytes());
            record[4..6].copy_from_slice(&(first as u16).to_be_bytes());
            let zeros = random.flip();
            if zeros {
                record[6..8].fill(0);
                record[24..].fill(0);
            }
        }
        plan.truncate(plan.len() - random.below(3) as usize);
        folder.write("plan", &plan);
        let shown = folder.run("plan --show plan --raw");
        assert!(shown.status < 2 && shown.err.is_empty(), "{shown:?}");
        folder.write("text", &shown.out);
        assert!(folder.run("plan text -o again").status < 2, "{}", shown.out);
        parse(&folder.run("plan --show plan --raw --json").out);
    }
}

#[test]
fn a_path_s_bytes_come_back_through_its_text() {
    let (folder, mut random) = (Folder::new(), Random(3));
    for round in 0..300 {
        let lengths = [(); 3].map(|()| {
            if random.below(3) == 0 {
                0
            } else {
                random.below(if round % 10 == 0 { 64 } else { 4 })
            }
        });
        let hops: u64 = lengths.iter().sum();
        let infos = lengths.iter().filter(|&&length| length != 0).count() as u64;
        let behind = if random.flip() { random.below(100) } else { 0 };
        let mut path = random.bytes((4 + 8 * infos + 12 * hops + behind) as usize);
        let word = random.below(1 << 14) << 18 | lengths[0] << 12 | lengths[1] << 6 | lengths[2];
        path[..4].copy_from_slice(&(word as u32).to_be_bytes());
        folder.write("path", &path);
        let shown = folder.run("sign --show path --raw");
        assert_eq!(shown.status, i32::from(hops > 64), "{lengths:?}");
        folder.write("text", &shown.out);
        let signed = folder.run("sign text -o again");
        // What the library turns down is said, and so is a path without hops, with a gap, or on its way.
        let status = folder.run("show path --raw").status;
        assert_eq!(signed.status, status, "{}", shown.out);
        assert_eq!(
            signed.err.contains("turns this header down"),
            signed.status == 1,
            "{}",
            signed.err
        );
        assert_eq!(signed.err.contains("number 4:"), hops > 64, "{}", signed.err);
        assert_eq!(signed.err.contains("the text has no hop"), hops == 0, "{}", signed.err);
        let last = lengths.iter().rposition(|&length| length != 0);
        let has_gap = last.map_or(0, |last| last as u64 + 1) != infos;
        assert_eq!(signed.err.contains("behind an empty one"), has_gap, "{}", signed.err);
        let is_moved = path[0] & 63 != 0;
        assert_eq!(
            signed.err.contains("as its source sends it"),
            is_moved,
            "{}",
            signed.err
        );
        let is_plain = signed.status == 0 && hops > 0 && !has_gap && !is_moved;
        assert_eq!(signed.err.is_empty(), is_plain, "{}", signed.err);
        assert_eq!(to_hex(&folder.read("again")), to_hex(&path), "{}", shown.out);
        folder.run("sign text -o again.hex");
        assert_eq!(folder.run("sign --show again.hex").out, shown.out);
        parse(&folder.run("show path --raw --json").out);
    }
}

/// A plan and a path text over it that is meant to pass.
fn fitting(random: &mut Random) -> (String, String) {
    let count = 1 + random.below(3);
    let segments: Vec<u64> = (0..count).map(|_| 2 + random.below(4)).collect();
    let stations = segments.iter().sum::<u64>() - segments.len() as u64 + 1;
    // Station k is entered by 2k + 1 and left by 2k + 2.
    let mut plan = String::new();
    for station in 0..stations {
        let (into, out) = (2 * station + 1, 2 * station + 2);
        let arrival = if station == 0 { 0 } else { into };
        plan += &format!("station\narrival {arrival}\nkey {}\n", to_hex(&random.bytes(16)));
        plan += &format!("interface {into} child up\ninterface {out} child up\n");
    }
    let (mut path, mut station) = (String::new(), 0);
    for hops in segments {
        let cons_dir = random.flip();
        let start = match (random.below(3), cons_dir) {
            (0, _) => String::new(),
            (1, true) => format!("seg_id {:04x}\n", random.below(65536)),
            _ => format!("beta {:04x}\n", random.below(65536)),
        };
        path += &format!("segment\ncons_dir {}\n{start}", if cons_dir { "yes" } else { "no" });
        path += &format!(
            "peering {}\ntimestamp 1970-01-01T00:16:4{}Z\n",
            if random.flip() { "yes" } else { "no" },
            random.below(9)
        );
        for hop in 0..hops {
            let (first, last) = (station == 0, hop + 1 == hops);
            let is_change = hop == 0 && station != 0;
            let into = if first || is_change && random.flip() {
                0
            } else {
                2 * station + 1
            };
            let out = if last && random.flip() { 0 } else { 2 * station + 2 };
            path += &format!("hop in {into} out {out} exp_time {}\n", random.below(256));
            station += u64::from(!last);
        }
    }
    (plan, path)
}

/// Signing puts the MACs together as the library takes them apart, in each direction.
#[test]
fn a_signed_path_passes() {
    let (folder, mut random) = (Folder::new(), Random(4));
    for _ in 0..300 {
        let (plan, path) = fitting(&mut random);
        folder.write("plan.txt", &plan);
        folder.write("path.txt", &path);
        let signed = folder.run("sign path.txt --plan plan.txt -o path");
        assert_eq!((signed.status, &signed.err[..]), (0, ""), "{path}");
        let ran = folder.run("journey path plan.txt --earliest 1010 --latest 1337");
        assert!(ran.out.starts_with("passed, number 120"), "{plan}{path}{}", ran.out);
        // One bit of a MAC less, and it does not.
        let mut broken = folder.read("path");
        let infos = path.matches("segment").count();
        let hop = random.below(path.matches("hop ").count() as u64) as usize;
        broken[4 + 8 * infos + 12 * hop + 6 + random.below(6) as usize] ^= 1 << random.below(8);
        folder.write("broken", broken);
        let ran = folder.run("journey broken plan.txt --raw --earliest 1010 --latest 1337");
        assert!(
            ran.out.starts_with("refused, number 23"),
            "a text is no raw plan: {}",
            ran.out
        );
        folder.run("plan plan.txt -o plan");
        let ran = folder.run("journey broken plan --raw --earliest 1010 --latest 1337");
        assert!(
            ran.out.starts_with("not passed, number 121") && ran.out.contains("number 12:"),
            "{}",
            ran.out
        );
    }
}

#[test]
fn a_hop_without_a_key_is_said() {
    let folder = Folder::with_site();
    folder.write(
        "short.txt",
        "station\narrival 0\nkey 30a1f2c4b5d697e8091a2b3c4d5e6f70\n",
    );
    let signed = folder.run("sign good.txt --plan short.txt -o -");
    assert_eq!(signed.status, 1);
    assert_eq!(signed.err.lines().count(), 2);
    assert!(signed
        .err
        .contains("the plan has 1 station, and this path asks for 4 (hops - infos + 1)"));
    assert!(signed
        .err
        .contains("hops 1, 2, 3, 4 have no key, so that their MACs are zeros: the plan has 1 station, and hop 1 is for station 1, counted from 0"));
    let unsigned = folder.run("sign good.txt -o -");
    assert!(unsigned
        .err
        .contains("hops 0, 1, 2, 3, 4 have no key, so that their MACs are zeros: no plan was given (--plan)"));
    assert!(unsigned.out.ends_with("000000000000\n"));
}

/// Texts with letters lost, doubled or changed are taken or named as a mistake.
#[test]
fn texts_of_any_kind_are_read() {
    let (folder, mut random) = (Folder::with_site(), Random(5));
    let mut taken = [0, 0];
    for (name, call) in [
        ("plan.txt", "plan text -o out"),
        ("good.txt", "sign text --plan site.plan -o out"),
    ] {
        let original = folder.read(name);
        for _ in 0..300 {
            let mut text = original.clone();
            for _ in 0..1 + random.below(3) {
                let at = random.below(text.len() as u64) as usize;
                match random.below(4) {
                    0 => drop(text.remove(at)),
                    1 => text.insert(at, text[at]),
                    2 => text[at] = random.below(128) as u8,
                    _ => text.truncate(at.max(1)),
                }
            }
            folder.write("text", &text);
            let ran = folder.run(call);
            // A text that is taken is written; a plan in it may still be turned down.
            let is_taken = ran.status == 0 || ran.status == 1;
            assert!(is_taken || ran.status == 2, "{ran:?}");
            assert!(is_taken || ran.err.starts_with("rehearse: text"), "{ran:?}");
            taken[usize::from(is_taken)] += 1;
        }
    }
    assert!(taken[0] > 50 && taken[1] > 50, "{taken:?}");
}
