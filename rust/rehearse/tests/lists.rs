//! Lists of journeys: lines that are no good, and a reader that goes away.

mod common;

use common::json::{parse, Value};
use common::{expect, Folder, READINGS};

/// The status is that of all journeys, also where nobody reads their lines.
#[test]
fn a_list_without_a_reader_is_checked_to_its_end() {
    let folder = Folder::with_site();
    let good = "good.path site.plan\n".repeat(200);
    for (last, status) in [
        ("good.path site.plan", 0),
        ("late.path site.plan", 1),
        ("nope site.plan", 2),
    ] {
        folder.write("list", format!("{good}{last}\n"));
        for reader in ["true", "head -1"] {
            let call = format!("{{ rehearse journey --batch list {READINGS}; echo $? >status; }} | {reader}");
            let ran = folder.shell(&call);
            assert!(ran.err.is_empty(), "{ran:?}");
            // The status is written once the list is through, which the reader does not wait for.
            let said = (0..600).find_map(|_| {
                std::thread::sleep(std::time::Duration::from_millis(10));
                let said = std::fs::read_to_string(folder.0.join("status")).ok()?;
                said.trim().parse::<i32>().ok()
            });
            assert_eq!(said, Some(status), "{last} | {reader}");
            std::fs::remove_file(folder.0.join("status")).unwrap();
        }
    }
}

const LIST: &[u8] = b"\xef\xbb\xbfgood.path site.plan # the first of the day\n\
good.path\n\
good.path site.plan late.path\n\
  # a remark on a caf\xe9\n\
caf\xe9.path site.plan\n\
late.path site.plan\t# with a tab\n\
good.path site.plan\r\n";

#[test]
fn each_bad_line_is_named_and_the_others_are_checked() {
    let folder = Folder::with_site();
    folder.write("list", LIST);
    folder.write("list-one", "good.path\n");
    let mut said = folder.transcript(&format!("journey --batch list {READINGS}"));
    said += &folder.transcript(&format!("journey --batch list-one {READINGS}"));
    expect("bad-lines.txt", &said);
    assert_eq!(folder.run(&format!("journey --batch list {READINGS}")).status, 2);

    let ran = folder.run(&format!("journey --batch list {READINGS} --json"));
    let answers: Vec<Value> = ran.out.lines().map(parse).collect();
    let lines: Vec<_> = answers[..6].iter().filter_map(|answer| answer.number("line")).collect();
    assert_eq!((ran.status, &lines[..]), (2, &[1, 2, 3, 5, 6, 7][..]));
    assert_eq!(answers[6].number("not_read"), Some(3));
}

/// What stands on a terminal that a call writes to. `script` lends one; where it is not there, nothing is tried.
fn screen(folder: &Folder, call: &str) -> Option<String> {
    let ran = folder.shell(&format!(
        "command -v script || exit 3; SHELL=/bin/sh script -qec 'rehearse {call}' screen </dev/null >/dev/null"
    ));
    if ran.status == 3 {
        return None;
    }
    assert_eq!(ran.status, 0, "{ran:?}");
    Some(String::from_utf8_lossy(&folder.read("screen")).into_owned())
}

const CLEAR: &str = "\r\x1b[K";

#[test]
fn progress_is_shown_on_a_terminal_and_taken_away() {
    let folder = Folder::with_site();
    folder.write("long", "good.path site.plan\n".repeat(3_000));
    let call = format!("journey --batch long {READINGS}");
    // The lines go to a file, the progress to the terminal.
    let Some(shown) = screen(&folder, &format!("{call} >out")) else {
        return;
    };
    let drawn: Vec<&str> = shown.split(CLEAR).collect();
    assert!(drawn.contains(&"1 of 3000"), "{shown:?}");
    assert!(!drawn.last().unwrap().contains(" of 3000"), "{shown:?}");
    assert_eq!(folder.text("out").lines().count(), 3_001);

    // Both go to the terminal: the lines stand whole, each once, and the progress behind those that are done.
    let shown = screen(&folder, &call).unwrap();
    assert_eq!(shown.matches("passed      good.path site.plan\r\n").count(), 3_000);
    let of_progress = shown.split(CLEAR).filter(|part| part.ends_with(" of 3000"));
    assert!(of_progress.clone().count() >= 1, "{shown:?}");
    let mut done = 0;
    for part in shown.split(CLEAR) {
        if let Some(count) = part.strip_suffix(" of 3000") {
            assert_eq!(count.parse(), Ok(done), "{shown:?}");
        }
        done += part.matches("passed      good").count();
    }
    assert!(shown.contains("3000 journeys: 3000 passed"), "{shown:?}");
}

/// What is said beside an answer stands in its line: the first of it, and how much more there is.
#[test]
fn a_line_says_what_to_look_at() {
    let folder = Folder::with_site();
    let plan = folder.text("plan.txt");
    let down = plan.replace("interface 21 parent up", "interface 21 parent down");
    folder.write("down", &down);
    folder.write(
        "downs",
        down.replace("interface 31 parent up", "interface 31 parent down"),
    );
    folder.write("cut", &folder.read("good.path")[..70]);
    folder.write("list", "good.path down\ngood.path downs\ncut site.plan\n");
    let first = "not asked: station 2 lists interface 21, which the packet arrives by, as down";
    assert_eq!(
        folder.run(&format!("journey --batch list {READINGS}")).out,
        format!(
            "passed      good.path down: {first}\n\
             passed      good.path downs: {first} (and 1 more)\n\
             refused 3   cut site.plan: the path is shorter than its segment lengths say\n\
             3 journeys: 2 passed, 0 not passed, 1 refused (1 by 3), 0 not read\n"
        )
    );
}

/// Long lists of sentences are cut, and a plan of 64 stations, which a peering path can have, is listed whole.
#[test]
fn what_is_seen_is_cut_where_nobody_reads_on() {
    let folder = Folder::with_site();
    let station = |arrival: usize| format!("station\narrival {arrival}\nkey 000102030405060708090a0b0c0d0e0f\n");
    folder.write("64", (0..64).map(station).collect::<String>());
    let ran = folder.run(&format!("journey good.path 64 {READINGS}"));
    assert!(ran.out.contains(", 62, 63\n"), "{}", ran.out);
    folder.write("70", (0..70).map(station).collect::<String>());
    let ran = folder.run(&format!("journey good.path 70 {READINGS}"));
    assert!(ran.out.contains(", 62, 63, and 6 more\n"), "{}", ran.out);
    folder.write("zeros", (0..40).map(|_| station(0)).collect::<String>());
    let ran = folder.run(&format!("journey good.path zeros {READINGS}"));
    assert_eq!(ran.out.matches(", not the first, arrives by 0").count(), 20);
    assert!(ran.out.contains("                 and 19 more\n"), "{}", ran.out);
    folder.write("63", (0..63).map(station).collect::<String>());
    let hops = "hop in 1 out 1 lasts 6h alert ingress\n".repeat(63);
    folder.write(
        "alerts",
        format!("segment\ncons_dir yes\ntimestamp 2026-11-16T06:00:00Z\n{hops}"),
    );
    folder.run("sign alerts --plan 63 -o path");
    let ran = folder.run(&format!("journey path 63 {READINGS}"));
    assert_eq!(ran.out.matches(" has an alert\n").count(), 20);
    assert!(ran.out.contains("                 and 43 more\n"), "{}", ran.out);
}
