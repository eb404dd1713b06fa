//! What people did on their first day with the program, and what it said.

mod common;

use common::json::parse;
use common::{from_hex, Folder, HALL_A, PROGRAM, READINGS};
use std::process::{Command, Stdio};
use std::time::{Duration, Instant};

const AT: &str = "--now 2026-11-16T06:05:00Z";

#[test]
fn text_in_other_letters_is_named() {
    let folder = Folder::with_site();
    let plan = folder.text("plan.txt");
    let umlaut = plan.replace("hall A, where", "die K\u{fc}hlhalle, where");
    let latin: Vec<u8> = umlaut.chars().map(|letter| letter as u8).collect();
    let wide = |mark: u16, unit: fn(u16) -> [u8; 2]| -> Vec<u8> {
        std::iter::once(mark)
            .chain(plan.encode_utf16())
            .flat_map(unit)
            .collect()
    };
    folder.write("latin", latin);
    folder.write("little", wide(0xfeff, u16::to_le_bytes));
    folder.write("big", wide(0xfeff, u16::to_be_bytes));
    for (name, why) in [
        (
            "latin",
            "latin is text, but not in UTF-8: line 3 has the byte fc: save it as UTF-8",
        ),
        ("little", "little is text in UTF-16: save it as UTF-8"),
        ("big", "big is text in UTF-16: save it as UTF-8"),
    ] {
        for call in [
            format!("plan {name} -o x"),
            format!("plan --show {name}"),
            format!("journey good.path {name} {READINGS}"),
            format!("journey {name} site.plan {READINGS}"),
            format!("sign good.txt --plan {name} -o x"),
            format!("sign {name} -o x"),
            format!("show {name}"),
        ] {
            let ran = folder.run(&call);
            assert!(ran.status == 2 && ran.err.contains(why), "{call}: {ran:?}");
        }
        assert_eq!(folder.run(&format!("plan --show {name} --raw")).status, 1);
    }
    assert!(!folder.0.join("x").exists());
    // A header with letters in it is no text for all that: its second byte is below 4.
    let mut path = folder.read("good.path");
    path[4..].fill(b'a');
    path[40] = 0xfc;
    folder.write("letters", path);
    assert_eq!(folder.run("show letters").status, 0);
    folder.write("few", [&b"abc"[..], b"\xfc\xfd"].concat());
    assert_eq!(folder.run("show few").status, 1);

    // Other line ends and a byte order mark give the same bytes.
    for (name, text) in [
        ("crlf", plan.replace('\n', "\r\n")),
        ("cr", plan.replace('\n', "\r")),
        ("mark", format!("\u{feff}{plan}")),
        ("utf8", umlaut),
    ] {
        folder.write(name, text);
        assert_eq!(folder.run(&format!("plan {name} -o {name}.plan")).status, 0, "{name}");
        assert_eq!(folder.read(&format!("{name}.plan")), folder.read("site.plan"), "{name}");
        assert_eq!(
            folder.run(&format!("journey good.path {name} {READINGS}")).status,
            0,
            "{name}"
        );
    }
    folder.write(
        "marked",
        format!("\u{feff}{}\n", common::to_hex(&folder.read("good.path"))),
    );
    assert_eq!(folder.run("show marked").out, folder.run("show good.path").out);
    assert_eq!(folder.run("show marked --hex").status, 0);
}

#[test]
fn a_plan_in_the_place_of_a_path_is_named() {
    let folder = Folder::with_site();
    let note =
        "rehearse: site.plan is a plan by its bytes: `rehearse plan --show` shows it (--raw and --hex take it as a \
                path all the same)\n";
    for call in [
        "show site.plan",
        "expiration site.plan",
        "reverse site.plan",
        "sign --show site.plan",
    ] {
        let ran = folder.run(call);
        assert_eq!((ran.status, &ran.out[..], &ran.err[..]), (2, "", note), "{call}");
    }
    let ran = folder.run(&format!("step site.plan {HALL_A} --interface 0 {AT}"));
    assert_eq!((ran.status, &ran.out[..], &ran.err[..]), (2, "", note));
    let ran = folder.run(&format!("journey site.plan good.path {READINGS}"));
    assert!(
        ran.out.contains("    seen         the path is a plan by its bytes"),
        "{}",
        ran.out
    );
    folder.write("list", "site.plan good.path\n");
    let ran = folder.run(&format!("journey --batch list {READINGS}"));
    assert!(
        ran.out
            .starts_with("refused 23  site.plan good.path: the path is a plan"),
        "{}",
        ran.out
    );
    assert_eq!(folder.run("show good.path").err, "");
    // And the other way round.
    let ran = folder.run(&format!("journey good.path good.path {READINGS}"));
    assert!(
        ran.out.contains("    seen         the plan is a path by its bytes"),
        "{}",
        ran.out
    );
    assert!(folder
        .run("plan --show good.path")
        .out
        .starts_with("# this is a path by its bytes: `rehearse show` shows it\n"));
}

/// A station of a plan stands for its table, its key and its arrival.
#[test]
fn a_step_takes_its_station_from_a_plan() {
    let folder = Folder::with_site();
    let written = folder.run(&format!(
        "step good.path {HALL_A} --interface 0 {AT} --write a.path --json"
    ));
    for plan in ["site.plan", "plan.txt"] {
        let call = format!("step good.path --plan {plan} --station 0 {AT} --write a.path --json");
        assert_eq!(folder.run(&call).out, written.out);
    }
    for (station, from, to) in [(1, "a", "b"), (2, "b", "c"), (3, "c", "d")] {
        let call = format!("step {from}.path --plan site.plan --station {station} {AT} --write {to}.path");
        assert_eq!(folder.run(&call).status, 0, "{station}");
    }
    assert!(folder
        .run(&format!("step c.path --plan site.plan --station 3 {AT}"))
        .out
        .starts_with("delivered"));
    let ran = folder.run(&format!(
        "ingress a.path --plan site.plan --station 1 --interface 12 {AT}"
    ));
    assert!(ran.out.starts_with("refused, number 9: "), "{}", ran.out);
    let ran = folder.run(&format!(
        "egress good.path --plan site.plan --station 0 --interface 1 {AT}"
    ));
    assert_eq!(ran.status, 0);
    // The arrival stands for --interface, unless that is given; --raw is for the plan too.
    assert_eq!(
        folder
            .run(&format!("ingress a.path --plan site.plan --station 1 {AT}"))
            .status,
        0
    );
    let ran = folder.run(&format!("step a.path --plan site.plan --station 1 --interface 0 {AT}"));
    assert!(ran.out.starts_with("refused, number 12: "), "{}", ran.out);
    let ran = folder.run(&format!("step good.path --plan plan.txt --station 0 --raw {AT}"));
    assert!(
        ran.status == 2 && ran.err.contains("plan.txt has 0 stations"),
        "{ran:?}"
    );
    let ran = folder.run(&format!("step good.path --plan good.path --station 0 {AT}"));
    assert!(
        ran.status == 2 && ran.err.contains("good.path is a path by its bytes: name a plan"),
        "{ran:?}"
    );
    folder.write("cut.plan", &folder.read("site.plan")[..224]);
    let ran = folder.run(&format!("step good.path --plan cut.plan --station 0 {AT}"));
    assert!(
        ran.err
            .contains("turns this plan down for every path: a chain of interface records leads to record 7"),
        "{}",
        ran.err
    );
    // A plan that fits no path is named: what is read of it may not be what was meant.
    folder.write("bad.txt", folder.text("plan.txt").replace("arrival 31", "arrival 0"));
    let ran = folder.run(&format!("step good.path --plan bad.txt --station 0 {AT}"));
    assert_eq!(ran.status, 0);
    assert!(
        ran.err
            .contains("turns this plan down for every path: station 3, not the first"),
        "{}",
        ran.err
    );
    for (call, why) in [
        ("step good.path --plan site.plan", "--station is missing"),
        ("step good.path --station 1", "--station goes with --plan"),
        (
            "step good.path --plan site.plan --station 4",
            "site.plan has 4 stations and no station 4",
        ),
        (
            "step good.path --plan site.plan --station x",
            "`x` is no place in a plan",
        ),
        (
            "step good.path --plan site.plan --station 0 --key 00",
            "--key does not go with --plan",
        ),
        (
            "step good.path --plan site.plan --station 0 --table 1:child:up",
            "--table does not go with --plan",
        ),
        (
            "egress good.path --plan site.plan --station 0",
            "--interface is missing",
        ),
        (
            "step good.path --table plan.txt --key 30a1f2c4b5d697e8091a2b3c4d5e6f70 --interface 0",
            "`--plan PLAN --station 0`",
        ),
    ] {
        let ran = folder.run(&format!("{call} {AT}"));
        assert!(ran.status == 2 && ran.err.contains(why), "{call}: {ran:?}");
    }
}

#[test]
fn a_path_that_nobody_takes_is_not_signed_in_silence() {
    let folder = Folder::with_site();
    let ran = folder.run("sign good.txt -o x.path");
    assert_eq!(ran.status, 1);
    assert_eq!(
        ran.err,
        "rehearse: hops 0, 1, 2, 3, 4 have no key, so that their MACs are zeros: no plan was given (--plan)\n"
    );
    let plan = folder.text("plan.txt");
    folder.write("short", &plan[..plan.find("# 3:").unwrap()]);
    let ran = folder.run("sign good.txt --plan short -o x.path");
    assert_eq!(ran.status, 1);
    assert!(ran.err.ends_with(
        "rehearse: hop 4 has no key, so that its MAC is zeros: the plan has 3 stations, and hop 4 is for station 3, counted \
         from 0\n"
    ));
    let good = folder.text("good.txt");
    folder.write("small.txt", good.replace("2026-11-16T06:00:00Z", "20261116"));
    let ran = folder.run("sign small.txt --plan site.plan -o x.path");
    assert_eq!(ran.status, 0);
    assert_eq!(
        ran.err.lines().next().unwrap(),
        "rehearse: small.txt, line 10: 20261116 is 1970-08-23T12:05:16Z: a number is seconds since 1970"
    );
    assert_eq!(ran.err.matches("a number is seconds since 1970").count(), 2);
    folder.write("nobody", "# no station\n");
    assert!(!folder
        .run("sign good.txt --plan nobody -o x.path")
        .err
        .contains("had no effect"));
    folder.write(
        "kept.txt",
        good.replace("in 21 out 22 lasts 6h", "in 21 out 22 lasts 6h mac 0123456789ab"),
    );
    let ran = folder.run("sign kept.txt --plan site.plan -o x.path");
    assert!(ran
        .out
        .starts_with("a path of 5 hops in 2 segments, 4 MACs worked out, 1 as in the text\n    expires "));
}

#[test]
fn a_plan_that_fits_no_path_is_explained_where_it_is_made() {
    let folder = Folder::with_site();
    let plan = folder.text("plan.txt");
    for (text, why) in [
        (String::new(), "it has no station"),
        (
            plan.replace("arrival 11", "arrival 0"),
            "station 1, not the first, arrives by 0",
        ),
        (
            plan.replace("interface 12 child up", "interface 10 child up"),
            "station 1 lists interface 11 before 10: not ascending",
        ),
    ] {
        folder.write("text", text);
        let said = format!("question 23 turns this plan down for every path: {why}");
        let ran = folder.run("plan text -o out.plan");
        assert_eq!((ran.status, ran.err), (1, format!("rehearse: {said}\n")));
        let shown = folder.run("plan --show out.plan");
        assert!(
            shown.status == 1 && shown.out.starts_with(&format!("# {said}\n")),
            "{shown:?}"
        );
        let answer = parse(&folder.run("plan text --json").out);
        assert_eq!((answer.text("answer"), answer.number("number")), ("refused", Some(23)));
        assert_eq!(answer.texts("notes"), [said]);
    }
    // 63 stations that share a table of 256 interfaces: a sound plan whose text takes too many records.
    let mut bytes = vec![0; 32 * (1 + 63 + 256)];
    let mut put = |at: usize, number: usize| bytes[at..at + 2].copy_from_slice(&(number as u16).to_be_bytes());
    put(0, 1);
    for station in 1..=63 {
        put(32 * station, (station + 1) % 64);
        put(32 * station + 2, station - 1);
        put(32 * station + 4, 64);
    }
    for record in 64..320 {
        put(32 * record, (record + 1) % 320);
        put(32 * record + 2, record);
    }
    folder.write("shared", bytes);
    let shown = folder.run("plan --show shared");
    assert_eq!(shown.status, 0);
    assert!(
        shown
            .out
            .starts_with("# stations share records here: `rehearse plan` does not share any"),
        "{}",
        shown.out
    );
    folder.write("text", &shown.out);
    assert!(folder
        .run("plan text -o y")
        .err
        .contains("takes more than 2,048 records"));
}

#[test]
fn a_path_turned_around_on_its_way_is_noted() {
    let folder = Folder::with_site();
    let ran = folder.run("reverse good.path --write back");
    assert_eq!(ran.status, 0);
    assert_eq!(
        ran.err,
        "rehearse: the path stands at hop 4 now: a journey back starts at hop 0, with the path turned around where it was \
         delivered\n"
    );
    assert_eq!(folder.run("reverse back").err, "");
}

#[test]
fn the_end_of_a_path_with_an_empty_segment_is_said_truly() {
    let folder = Folder::with_site();
    let good = folder.text("good.txt");
    folder.write("first.txt", good.replacen("segment\n", "segment none\nsegment\n", 1));
    folder.write("middle.txt", good.replace("# Down from", "segment none\n# Down from"));
    for (name, sentence) in [
        (
            "first",
            "no segment stands before the first empty one, so that the time is 0",
        ),
        ("middle", "the path ends at 2026-11-16T12:00:00Z (1794830400)"),
    ] {
        folder.run(&format!("sign {name}.txt --plan site.plan -o {name}"));
        let ran = folder.run(&format!("expiration {name}"));
        assert!(
            ran.out.starts_with(&format!("expiration, number 111: {sentence}\n")),
            "{}",
            ran.out
        );
        assert_eq!(
            ran.err,
            "rehearse: the segments behind the first empty one are not looked at\n"
        );
    }
    assert_eq!(folder.run("expiration good.path").err, "");
}

#[test]
fn words_that_are_almost_right_are_named() {
    let folder = Folder::with_site();
    for (call, meant) in [
        ("jurney", "`jurney` is not a command of rehearse, but journey is: see"),
        ("help sing", "`sing` is not a command of rehearse, but sign is: see"),
        (
            "journey a b --earlyest 1",
            "`--earlyest` is not an option of this command, but --earliest is: see",
        ),
        (
            "reverse good.path -o x",
            "`-o` is not an option of this command, but --write is: see",
        ),
        (
            "plan plan.txt --write x",
            "`--write` is not an option of this command, but -o is: see",
        ),
        (
            "sign good.txt --output x",
            "`--output` is not an option of this command, but -o is: see",
        ),
        (
            "show -x.path",
            "`-x.path` is not an option of this command; a file of that name is written with ./ before it: see",
        ),
        ("expire", "`expire` is not a command of rehearse: see"),
        (
            "step good.path --now 2026-11-16 06:05:00",
            "a file name or a date with a space goes between quotes",
        ),
    ] {
        let ran = folder.run(call);
        assert!(ran.status == 2 && ran.err.contains(meant), "{call}: {ran:?}");
    }
    let twelve = folder.run("help 12").out;
    assert_eq!(
        twelve.matches("question 12  MAC right, or MACs ignored? No. ").count(),
        4
    );
    assert_eq!(folder.run("help 1").out.lines().count(), 2);
    for number in ["0", "26", "-1", "+1"] {
        let ran = folder.run(&format!("help {number}"));
        assert_eq!(ran.status, 2, "{number}");
    }
    for word in "station arrival key interface".split(' ') {
        folder.write("text", format!("station\n{}\n", word.to_uppercase()));
        assert!(
            folder
                .run("plan text -o x")
                .err
                .contains(&format!("line 2: write `{word}` in small letters")),
            "{word}"
        );
    }
    for word in
        "path curr_inf curr_hf segment cons_dir peering seg_id beta timestamp reserved reserved_flags hop behind"
            .split(' ')
    {
        folder.write("text", format!("segment\n{}\n", word.to_uppercase()));
        assert!(
            folder
                .run("sign text -o x")
                .err
                .contains(&format!("line 2: write `{word}` in small letters")),
            "{word}"
        );
    }
    for (command, text, said) in [
        (
            "plan",
            "station\ninterface 1 parent UP\n",
            "line 2: `UP` is no state of a link: write up or down",
        ),
        (
            "plan",
            "station\ninterface 1 kid up\n",
            "line 2: `kid` is no kind of link: write core, parent, child or peer",
        ),
        (
            "sign",
            "segment none\nsegment none\nsegment none\nsegment\n",
            "line 4: a path has at most three segments, `segment none` counted",
        ),
        ("plan", "Station\n", "line 1: write `station` in small letters"),
        (
            "plan",
            "station\nArrival 0\n",
            "line 2: write `arrival` in small letters",
        ),
        ("sign", "Segment\n", "line 1: write `segment` in small letters"),
        (
            "plan",
            "station Core\n",
            "line 1: write `station` alone; a name goes behind a #",
        ),
        (
            "sign",
            "segment\nhop ingress 1 out 2 lasts 6h\n",
            "line 2: `ingress` is not known here: write `hop in 0",
        ),
        (
            "sign",
            "segment\nhop in 1 out 2\n",
            "line 2: this hop has no `lasts`: write",
        ),
        (
            "sign",
            "segment\nhop out 2 lasts 6h\n",
            "line 2: this hop has no `in`: write",
        ),
        (
            "sign",
            "segment\nhop in 1 lasts 6h\n",
            "line 2: this hop has no `out`: write",
        ),
        (
            "sign",
            "segment\nhop in 1 out\n",
            "line 2: `out` has nothing behind it: write",
        ),
        (
            "sign",
            "segment\ntimestamp\n",
            "line 2: write a time behind `timestamp`",
        ),
        (
            "sign",
            "segment\nhop in 1 out 2 lasts 6h alert ingress alert ingress\n",
            "line 2: `alert ingress` stands here a second time",
        ),
        (
            "plan",
            "station\nkey 0x30\n",
            "line 2: write 32 hex digits behind `key`: character 2 of 4 is `x` (leave out the `0x`)",
        ),
        (
            "plan",
            "station\nkey 3g\n",
            "line 2: write 32 hex digits behind `key`: character 2 of 2 is `g`",
        ),
        (
            "plan",
            "station\nkey 30\n",
            "line 2: write 32 hex digits behind `key`, not 2",
        ),
    ] {
        folder.write("text", text);
        let ran = folder.run(&format!("{command} text -o x"));
        assert!(ran.status == 2 && ran.err.contains(said), "{text}: {ran:?}");
    }
}

/// Whoever types a text gets to know what is missing before, not behind it.
#[test]
fn the_words_of_a_call_are_asked_before_anything_is_read() {
    let folder = Folder::with_site();
    let step = format!("{HALL_A} --interface 0 {AT}");
    for call in [
        "step -".into(),
        "ingress - --table 1:child:up".into(),
        "egress -".into(),
        format!("step - --table 1:uncle:up --key 30a1f2c4b5d697e8091a2b3c4d5e6f70 --interface 0 {AT}"),
        format!("step - --table 1:child:up --key zz --interface 0 {AT}"),
        format!("step - {step} --write -"),
        format!("step - {step} --raw --hex"),
        "reverse - --write -".into(),
        "plan -".into(),
        "plan - -o x --hex".into(),
        "plan - -o - --json".into(),
        "sign -".into(),
        "sign - -o x --raw".into(),
        "sign - -o - --json".into(),
        "sign good.txt --plan -".into(),
        "sign - --plan site.plan --raw --hex -o x".into(),
        "journey - site.plan".into(),
        format!("journey - - {READINGS}"),
        "sign - --plan - -o x".into(),
        format!("step good.path --table - --key zz --interface 0 {AT}"),
        "show - --raw --hex".into(),
    ] {
        let mut child = Command::new(PROGRAM)
            .args(call.split(' '))
            .current_dir(&folder.0)
            .stdin(Stdio::piped())
            .stdout(Stdio::null())
            .stderr(Stdio::null())
            .spawn()
            .unwrap();
        let started = Instant::now();
        let status = loop {
            if let Some(status) = child.try_wait().unwrap() {
                break status;
            }
            if started.elapsed() > Duration::from_secs(20) {
                child.kill().unwrap();
                panic!("{call} waits for its input");
            }
            std::thread::sleep(Duration::from_millis(5));
        };
        assert_eq!(status.code(), Some(2), "{call}");
    }
}

#[test]
fn an_option_without_effect_is_a_mistake() {
    let folder = Folder::with_site();
    for call in [
        "plan plan.txt -o x --hex",
        "plan plan.txt -o x --raw",
        "sign good.txt -o x --hex",
    ] {
        let ran = folder.run(call);
        assert!(ran.status == 2 && ran.err.contains("ends in .hex"), "{call}: {ran:?}");
    }
    for call in ["plan plan.txt -o x --raw --hex", "sign good.txt -o x --raw --hex"] {
        assert!(folder.run(call).err.contains("do not go together"), "{call}");
    }
    assert!(!folder.0.join("x").exists());
}

#[test]
fn half_a_key_is_no_key() {
    let folder = Folder::with_site();
    folder.write("half", "30a1f2c4b5d697e8");
    folder.write("odd", "30a1f2c4b5d697e80");
    folder.write("whole", from_hex("30a1f2c4b5d697e8091a2b3c4d5e6f70"));
    let step = |key: &str| {
        folder.run(&format!(
            "step good.path --table 1:parent:up --key @{key} --interface 0 {AT}"
        ))
    };
    assert!(step("half")
        .err
        .contains("--key: half: write 32 hex digits, not 16; 16 bytes do as well"));
    assert!(step("odd")
        .err
        .contains("--key: odd: write 32 hex digits, not 17; 16 bytes do as well"));
    assert_eq!(step("whole").status, 0);
    folder.write("marked", "\u{feff}30a1f2c4b5d697e8091a2b3c4d5e6f70\n");
    assert_eq!(step("marked").status, 0);
    // Sixteen bytes with the mark of a text.
    folder.write("short", "\u{feff}30a1f2c4b5d69");
    assert!(step("short").err.contains("--key: short: write 32 hex digits, not 13"));
}

/// Names and texts of others are quoted in one line of a screen's length, and can't move the cursor.
#[test]
fn what_is_quoted_is_short_and_plain() {
    let folder = Folder::with_site();
    folder.write("long", "n".repeat(2_000_000));
    let ran = folder.run("sign long -o x");
    assert!(ran.status == 2 && ran.err.len() < 1_200, "{}", ran.err.len());
    assert!(ran.err.contains("letters left out"));
    folder.write(
        "list",
        "x\rpassed      good.path site.plan\tsite.plan\ngood.path site.plan\n\u{1b}[2K x\n",
    );
    let ran = folder.run(&format!("journey --batch list {READINGS}"));
    assert_eq!(ran.out.matches("there is a control character in this line").count(), 2);
    assert!(!ran.out.contains(['\r', '\u{1b}']), "{}", ran.out);
    folder.write("list", format!("{} site.plan\n", "n".repeat(5_000)));
    assert!(folder.run(&format!("journey --batch list {READINGS}")).out.len() < 3_000);
    assert!(folder.call(&["c".repeat(20_000).as_str()], b"").err.len() < 1_200);
    assert!(!folder
        .call(&["demo", "--write", "d\u{1b}[2K"], b"")
        .out
        .contains('\u{1b}'));
    for name in ["a\nb", "a\u{1b}[2Kb"] {
        let ran = folder.call(&["show", name], b"");
        assert_eq!(ran.err.lines().count(), 1, "{ran:?}");
        assert!(!ran.err.contains('\u{1b}'), "{ran:?}");
        folder.write(name, folder.read("good.path"));
        let ran = folder.call(&["reverse", "good.path", "--write", name], b"");
        assert!(ran.status == 0 && !ran.out.contains(name), "{ran:?}");
    }
}

/// A list is read a line at a time, and a plan's text up to the most that a plan can hold.
#[test]
fn long_texts_are_given_up_early() {
    let folder = Folder::with_site();
    folder.write("stations", "station\n".repeat(2_000_000));
    let ran = folder.run("plan stations -o x");
    assert!(
        ran.err
            .contains("stations, line 2048: the plan takes more than 2,048 records"),
        "{}",
        ran.err
    );
    let ran = folder.shell(&format!(
        "ulimit -v 200000; yes x | head -c 2000000 >list; rehearse journey --batch list {READINGS} | tail -n 1"
    ));
    assert_eq!(
        ran.out,
        "1000000 journeys: 0 passed, 0 not passed, 0 refused, 1000000 not read\n"
    );
}
