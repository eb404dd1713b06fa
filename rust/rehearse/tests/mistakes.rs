//! What a new user gets wrong: each call ends with status 2 and a sentence, or with the library's answer. Compared with
//! stored outputs.

mod common;

use common::{expect, Folder};

const STEP: &str = "--table 1:parent:up --key 30a1f2c4b5d697e8091a2b3c4d5e6f70 --interface 0 --now 1794809100";
const REST: &str = "--interface 0 --now 1794809100";

/// A folder with files that are no good.
fn folder() -> Folder {
    let folder = Folder::with_site();
    folder.write("empty", "");
    folder.write("blank", "\n");
    folder.write("odd.hex", "0000 200");
    folder.write("not-hex", "0000 200g");
    folder.write("junk", common::Random(7).bytes(200));
    folder.write("nothing.txt", "# no station yet\n");
    folder.write("list-empty", "# nothing\n");
    std::fs::create_dir(folder.0.join("folder")).unwrap();
    let huge = std::fs::File::create(folder.0.join("huge")).unwrap();
    huge.set_len(100 * 1024 * 1024).unwrap();
    folder
}

fn transcript(folder: &Folder, calls: &[&str], status: i32) -> String {
    let each = calls.iter().map(|call| {
        let call = call.replace("STEP", STEP).replace("REST", REST);
        let ran = folder.run(&call);
        assert_eq!(ran.status, status, "{call}: {ran:?}");
        if status == 2 {
            assert_eq!(ran.out, "", "{call}");
            assert!(
                ran.err.starts_with("rehearse: ") && ran.err.ends_with('\n'),
                "{call}: {ran:?}"
            );
        }
        folder.transcript(&call)
    });
    each.collect()
}

#[test]
fn mistakes_in_a_call() {
    let calls = [
        "",
        "shwo",
        "--shwo",
        "help shwo",
        "show",
        "show good.path late.path",
        "show good.path --jsno",
        "show good.path --json=yes",
        "show good.path --raw --hex",
        "step good.path",
        "step good.path --table 1:parent:up",
        "step good.path --table 1:parent:up --key 00 REST",
        "step good.path --table 1:parent:up --key 30a1f2c4b5d697e8091a2b3c4d5e6f7g REST",
        "step good.path --table 1:parent:up --key @nope REST",
        "step good.path --table 1:parent:up --key @good.txt REST",
        "step good.path --table 1:parent:up --key 30a1f2c4b5d697e8091a2b3c4d5e6f70",
        "step good.path --table 1:parent:up --key 30a1f2c4b5d697e8091a2b3c4d5e6f70 --interface 65536 --now 1",
        "step good.path --table 1:parent:up --key 30a1f2c4b5d697e8091a2b3c4d5e6f70 --interface -1 --now 1",
        "step good.path --table 1:parent:up --key 30a1f2c4b5d697e8091a2b3c4d5e6f70 --interface 0",
        "step good.path --table 1:parent:up --key 30a1f2c4b5d697e8091a2b3c4d5e6f70 --interface 0 --now today",
        "step good.path --table 1:parent:up --key 30a1f2c4b5d697e8091a2b3c4d5e6f70 --interface 0 --now 4294967296",
        "step good.path --table 1:parent:up --key 30a1f2c4b5d697e8091a2b3c4d5e6f70 --interface 0 --now 2026-02-30",
        "step good.path --table 1:parent:up --key 30a1f2c4b5d697e8091a2b3c4d5e6f70 --interface 0 --now",
        "step good.path STEP --now 2",
        "step good.path STEP --write folder",
        "step good.path STEP --write nope/out",
        "step good.path STEP --write -",
        "step good.path --table 1:uncle:up --key 30a1f2c4b5d697e8091a2b3c4d5e6f70 --interface 0 --now 1",
        "step good.path --table nope --key 30a1f2c4b5d697e8091a2b3c4d5e6f70 --interface 0 --now 1",
        "step good.path --table good.txt --key 30a1f2c4b5d697e8091a2b3c4d5e6f70 --interface 0 --now 1",
        "journey good.path",
        "journey good.path site.plan",
        "journey good.path site.plan --earliest 1",
        "journey - - --earliest 1 --latest 2",
        "journey good.path --batch list-empty --earliest 1 --latest 2",
        "journey --batch list-empty --earliest 1 --latest 2",
        "journey --batch nope --earliest 1 --latest 2",
        "plan plan.txt",
        "plan plan.txt -o folder",
        "plan plan.txt --show site.plan",
        "plan --show site.plan -o x",
        "plan site.plan -o x",
        "sign good.txt --plan site.plan",
        "sign good.txt --plan nope -o x",
        "sign --show good.path --plan site.plan",
        "sign good.path -o x",
        "demo extra",
        "plan plan.txt -o --hex",
        "step good.path STEP --write --raw",
        "step good.path --table 1:parent:up --interface --key 30a1f2c4b5d697e8091a2b3c4d5e6f70 --now 1",
        "journey --batch --earliest 1 --latest 2",
        "plan --show --hex site.plan",
        "sign good.txt --plan -o x",
        "plan plan.txt -o --",
        "plan plan.txt -o plan.txt",
        "plan plan.txt -o folder/../plan.txt",
        "sign good.txt --plan plan.txt -o plan.txt",
        "sign good.txt --plan plan.txt -o good.txt",
        "step good.path STEP --write good.path",
        "reverse good.path --write ./good.path",
        "show -- --json",
        "demo --write empty",
        "plan folder -o x",
        "sign folder -o x",
        "step good.path --table folder --key 30a1f2c4b5d697e8091a2b3c4d5e6f70 REST",
        "step good.path --table junk --key 30a1f2c4b5d697e8091a2b3c4d5e6f70 REST",
        "step good.path --table 3 --key 30a1f2c4b5d697e8091a2b3c4d5e6f70 REST",
        "step good.path --table a:b/table --key 30a1f2c4b5d697e8091a2b3c4d5e6f70 REST",
        "step good.path --table 1:parent:up --key @folder REST",
        "step good.path --table 1:parent:up --key @junk REST",
        "step good.path --table 1:parent:up --key @empty REST",
        "journey --batch folder --earliest 1 --latest 2",
        "journey --batch huge --earliest 1 --latest 2",
        "show --qqq",
    ];
    expect("mistakes-call.txt", &transcript(&folder(), &calls, 2));
}

#[test]
fn files_that_can_not_be_read() {
    let folder = folder();
    let mut calls = Vec::new();
    for file in ["nope", "folder", "huge", "odd.hex", "good.txt"] {
        for call in [
            "show FILE",
            "step FILE STEP",
            "ingress FILE STEP",
            "egress FILE STEP",
            "reverse FILE",
            "expiration FILE",
            "journey FILE site.plan --earliest 1 --latest 2",
            "sign --show FILE",
        ] {
            calls.push(call.replace("FILE", file));
        }
    }
    for file in ["nope", "folder", "huge", "odd.hex", "good.txt"] {
        for call in [
            "journey good.path FILE --earliest 1 --latest 2",
            "plan --show FILE",
            "sign good.txt --plan FILE -o x",
        ] {
            calls.push(call.replace("FILE", file));
        }
    }
    for call in [
        "show not-hex --hex",
        "show good.path --hex",
        "plan junk -o x",
        "sign junk -o x",
        "plan huge -o x",
    ] {
        calls.push(call.into());
    }
    let calls: Vec<&str> = calls.iter().map(String::as_str).collect();
    expect("mistakes-file.txt", &transcript(&folder, &calls, 2));
}

/// Bytes that are no header or plan, but bytes: the library answers.
#[test]
fn bytes_of_any_kind_are_answered() {
    let calls = [
        "show empty",
        "show blank",
        "step empty STEP",
        "ingress empty STEP",
        "egress empty STEP",
        "reverse empty",
        "expiration empty",
        "journey empty site.plan --earliest 1 --latest 2",
        "journey good.path empty --earliest 1 --latest 2",
        "journey good.path junk --earliest 1 --latest 2",
        "journey good.path nothing.txt --earliest 1 --latest 2",
        "sign --show empty",
        "plan --show empty",
        "plan --show junk",
        "plan --show nothing.txt",
        "show not-hex --raw",
        "show junk",
        "step junk STEP",
        "ingress junk STEP",
        "egress junk STEP",
        "reverse junk",
        "expiration junk",
        "journey junk site.plan --earliest 1 --latest 2",
        "sign --show junk",
    ];
    expect("any-bytes.txt", &transcript(&folder(), &calls, 1));
}

#[test]
fn a_mistake_in_a_text_names_its_line() {
    let folder = Folder::with_site();
    let mut said = String::new();
    for text in [
        "arrival 0",
        "station hall A",
        "station",
        "station\narrival 0",
        "station\narrival\n",
        "station\narrival 0\narrival 0",
        "station\narrival 65536",
        "station\narrival -1",
        "station\n\n# comment\nkey 00",
        "station\nkey 000102030405060708090a0b0c0d0e0g",
        "station\ninterface 1 child",
        "station\ninterface 1 child sideways",
        "station\ninterface x child up",
        "station\ncolour blue",
    ] {
        folder.write("text", text);
        let ran = folder.run("plan text -o out");
        assert_eq!(ran.status, 2, "{text}");
        said += &format!("{text}\n=> {}\n", ran.err);
    }
    let many = "station\narrival 0\nkey 000102030405060708090a0b0c0d0e0f\n".to_string()
        + &"interface 1 child up\n".repeat(2047);
    folder.write("text", many);
    said += &format!("2,047 interfaces\n=> {}\n", folder.run("plan text -o out").err);
    for text in [
        "curr_hf 0",
        "path to nowhere",
        "path\npath",
        "path\ncurr_hf 64",
        "path\ncurr_inf 4",
        "path\nhop in 0 out 1 lasts 6h",
        "segment\ncurr_hf 0",
        "segment one",
        "segment",
        "segment\ncons_dir yes\nhop in 0 out 1 lasts 6h",
        "segment\ntimestamp 0\nhop in 0 out 1 lasts 6h",
        "segment\ncons_dir maybe",
        "segment\nseg_id 123",
        "segment\nseg_id 1234\nbeta 1234",
        "segment\ntimestamp yesterday",
        "segment\nreserved_flags 01",
        "segment\nhop",
        "segment\nhop in 0 out 1",
        "segment\nhop in 0 out 1 lasts 25h",
        "segment\nhop in 0 out 1 lasts 6h exp_time 63",
        "segment\nhop in 0 out 1 exp_time 256",
        "segment\nhop in 0 out 1 lasts 6h alert sideways",
        "segment\nhop in 0 out 1 lasts 6h mac 01",
        "segment\nhop in 0 out 1 lasts 6h mac",
        "segment\nhop in 0 in 0 out 1 lasts 6h",
        "segment none\nsegment none\nsegment none\nsegment none",
        "segment\ncons_dir no\nseg_id 1234\ntimestamp 0\nhop in 0 out 1 lasts 6h\nhop in 2 out 0 lasts 6h",
        "behind 0",
    ] {
        folder.write("text", text);
        let ran = folder.run("sign text --plan site.plan -o out");
        assert_eq!(ran.status, 2, "{text}");
        said += &format!("{text}\n=> {}\n", ran.err);
    }
    let many = "segment\ncons_dir yes\ntimestamp 0\n".to_string() + &"hop in 0 out 1 lasts 6h\n".repeat(64);
    folder.write("text", many);
    said += &format!("64 hops in a segment\n=> {}\n", folder.run("sign text -o out").err);
    expect("mistakes-text.txt", &said);
}

#[test]
fn a_reader_that_goes_away_is_no_fault() {
    let folder = Folder::with_site();
    // The last writes more than a pipe holds.
    let mut long = folder.read("good.path");
    long.resize(1 << 20, 7);
    folder.write("long", long);
    for call in [
        "demo",
        "show good.path",
        "--help",
        "show good.path --json",
        "sign --show long",
    ] {
        let ran = folder.shell(&format!("rehearse {call} 2>err | true; cat err"));
        assert_eq!((&ran.out[..], &ran.err[..]), ("", ""), "{call}");
    }
}

#[test]
fn a_screen_that_can_not_be_written_is_said() {
    if !std::path::Path::new("/dev/full").exists() {
        return;
    }
    let ran = Folder::new().shell("rehearse demo >/dev/full");
    assert_eq!(ran.status, 2);
    assert!(ran.err.starts_with("rehearse: standard output can't be written"));
}

/// The limit of what is read is 64 MiB, to the byte.
#[test]
fn a_file_is_read_up_to_its_limit() {
    let folder = Folder::new();
    let file = std::fs::File::create(folder.0.join("long")).unwrap();
    for (size, status) in [(64 << 20, 1), ((64 << 20) + 1, 2)] {
        file.set_len(size).unwrap();
        for call in ["expiration long --raw", "show long --raw"] {
            let ran = folder.run(call);
            let expected = if call.starts_with("expiration") && status == 1 {
                0
            } else {
                status
            };
            assert_eq!(ran.status, expected, "{call}");
            assert_eq!(ran.err.contains("more than 64 MiB"), status == 2, "{call}");
        }
    }
}

/// A file of one line, as long as files can be, takes its own size and at most as much again. Memory grows with the size, so
/// that a shorter file tells as well.
#[test]
fn a_file_of_one_line_takes_little_memory() {
    const SIZE: usize = 16 << 20;
    let folder = Folder::with_site();
    for (name, start, rest) in [
        ("letters", "", "n"),
        ("words", "", "n "),
        ("digits", "", "a"),
        ("groups", "", "a "),
        ("key", "station\nkey ", "a"),
        ("behind", "behind ", "a "),
        ("hop", "segment\nhop in 0 ", "n "),
        ("time", "segment\ntimestamp ", "n"),
    ] {
        folder.write(
            name,
            start.to_string() + &rest.repeat((SIZE - start.len()) / rest.len()),
        );
    }
    let step = |option: &str| format!("step good.path {option} {REST}");
    let journey = "--earliest 1 --latest 2";
    for (call, says) in [
        ("show letters".into(), "letters is text and no path header"),
        ("show - <letters".into(), "standard input is text and no path header"),
        ("sign --show words".into(), "words is text and no path header"),
        ("sign letters -o x".into(), "letters, line 1: write `path` or `segment`"),
        ("sign groups -o x".into(), "groups, line 1: write `path` or `segment`"),
        (
            "sign behind -o x".into(),
            "behind, line 1: there are more than 1,048,576 bytes",
        ),
        ("sign hop -o x".into(), "hop, line 2: `n` is not known here"),
        ("sign time -o x".into(), "time, line 2: `nnn"),
        (
            "plan words -o x".into(),
            "words, line 1: a plan starts with the word `station`",
        ),
        (
            "plan key -o x".into(),
            "key, line 2: write 32 hex digits behind `key`, not 16777204",
        ),
        (
            format!("journey good.path words {journey}"),
            "words, line 1: a plan starts",
        ),
        (
            format!("journey --batch words {journey}"),
            "line 1: this line is longer than two names",
        ),
        (
            step("--plan key --station 0"),
            "key, line 2: write 32 hex digits behind `key`",
        ),
        (
            step("--table words --key 000102030405060708090a0b0c0d0e0f"),
            "words, line 1: write `interface 1 child up`",
        ),
        (
            step("--table 1:parent:up --key @digits"),
            "--key: digits: write 32 hex digits, not 16777216",
        ),
    ] {
        let ran = folder.shell(&format!("ulimit -v {}; exec rehearse {call}", 3 * SIZE / 1024));
        let said = ran.out + &ran.err;
        assert_eq!(ran.status, 2, "{call}: {said}");
        assert!(said.contains(says) && said.len() < 2_000, "{call}: {said}");
    }
}

#[test]
fn endless_input_is_refused() {
    let folder = Folder::new();
    for call in ["show -", "plan - -o x"] {
        let ran = folder.shell(&format!("rehearse {call} < /dev/zero"));
        assert_eq!(ran.status, 2, "{call}");
        assert!(ran.err.contains("more than 64 MiB"), "{call}");
    }
}
