//! What is quoted of names and texts of others: each letter of it is seen, and no key is in it.

mod common;

use common::json::parse;
use common::{from_hex, to_hex, Folder, Ran, Random, READINGS};

/// Letters that are not seen, or that move those that are.
const UNSEEN: [char; 23] = [
    '\u{7f}',
    '\u{85}',
    '\u{9b}',
    '\u{ad}',
    '\u{61c}',
    '\u{180e}',
    '\u{200b}',
    '\u{200d}',
    '\u{200e}',
    '\u{2028}',
    '\u{2029}',
    '\u{202e}',
    '\u{2060}',
    '\u{2064}',
    '\u{2066}',
    '\u{2069}',
    '\u{fe0f}',
    '\u{feff}',
    '\u{fff9}',
    '\u{fffb}',
    '\u{e0001}',
    '\u{e0041}',
    '\u{e0100}',
];

#[test]
fn letters_that_nobody_sees_are_written_out() {
    let folder = Folder::with_site();
    for letter in UNSEEN {
        let name = format!("a{letter}b");
        let option = format!("--a{letter}b");
        folder.write("text", format!("station\n{name}\n"));
        folder.write("hex", format!("0000{letter}2083"));
        folder.write("list", format!("{name}.path {name}.plan\n"));
        let batch: Vec<&str> = ["journey", "--batch", "list"]
            .into_iter()
            .chain(READINGS.split(' '))
            .collect();
        for call in [
            &[&name[..]][..],
            &["show", &name],
            &["show", "good.path", &name],
            &["show", "good.path", &option],
            &["reverse", "good.path", "--write", &name],
            &["plan", "text", "-o", "x"],
            &["sign", "text", "-o", "x"],
            &["show", "hex"],
            &batch,
        ] {
            let ran = folder.call(call, b"");
            assert!(
                !ran.out.contains(letter) && !ran.err.contains(letter),
                "{call:?}: {ran:?}"
            );
            let ran = folder.call(&[call, &["--json"]].concat(), b"");
            assert!(
                !ran.out.contains(letter) && !ran.err.contains(letter),
                "{call:?}: {ran:?}"
            );
            let answers: Vec<_> = ran.out.lines().map(parse).collect();
            assert!(!answers.is_empty(), "{call:?}");
            if call.contains(&"--write") {
                assert_eq!(answers[0].text("written"), name);
            }
        }
    }
}

/// The key of hall A in the example site.
const KEY: &str = "30a1f2c4b5d697e8091a2b3c4d5e6f70";

/// The call as it is and with `--json`: a mistake that says this, and not the key.
fn assert_silent(folder: &Folder, call: &[&str], says: &str) {
    for call in [call.to_vec(), [call, &["--json"]].concat()] {
        let ran = folder.call(&call, b"");
        assert_eq!(ran.status, 2, "{call:?}: {ran:?}");
        assert!(ran.out.contains(says) || ran.err.contains(says), "{call:?}: {ran:?}");
        assert_no_key(&ran, &call, &[KEY.into()]);
    }
}

/// Eight digits of a key, one behind the other, are in nothing that was written. Signs do not part them, but for the
/// quotes of a sentence.
fn assert_no_key(ran: &Ran, call: &[&str], keys: &[String]) {
    for text in [&ran.out, &ran.err] {
        let letters = text.chars().filter(|&letter| letter.is_alphanumeric() || letter == '`');
        let letters: String = letters.map(|letter| letter.to_ascii_lowercase()).collect();
        for key in keys {
            let told = (8..=key.len()).find(|&end| letters.contains(&key[end - 8..end]));
            assert_eq!(told, None, "{call:?}: {ran:?}");
        }
    }
}

const SLIPS: [char; 7] = ['\n', '\t', ' ', '0', 'f', 'g', ':'];

const WORD: &str = "a word of 32 letters that may hold a key";
const NAME: &str = "a name of 32 letters that may hold a key is not there";

#[test]
fn a_key_in_the_wrong_place_of_a_call_is_not_told() {
    let folder = Folder::with_site();
    let step = |words: &[&'static str]| [&["step", "good.path"], words, &["--interface", "0", "--now", "1"]].concat();
    let key = |key: &'static str| step(&["--table", "1:parent:up", "--key", key]);
    let table = |table: &'static str| step(&["--table", table, "--key", "000102030405060708090a0b0c0d0e0f"]);
    for (call, says) in [
        (
            key("0a1f2c4b5d697e8091a2b3c4d5e6f70"),
            "--key: write 32 hex digits, not 31; or @",
        ),
        (
            key("30a1f2c4b5d697e8091a2b3c4d5e6f700"),
            "--key: write 32 hex digits, not 33; or @",
        ),
        (
            key("30a1f2c4b5d697e8 091a2b3c4d5e6f7"),
            "--key: write 32 hex digits, not 31; or @",
        ),
        (
            key("0x30a1f2c4b5d697e8091a2b3c4d5e6f70"),
            "--key: write 32 hex digits: character 2 of 34 is `x` (leave out the `0x`); or @",
        ),
        (
            key("key=30a1f2c4b5d697e8091a2b3c4d5e6f70"),
            "character 1 of 36 is `k`; or @",
        ),
        (
            key("30a1f2c4b5d697e8091a2b3c4d5e6f7O"),
            "character 32 of 32 is `O`; or @",
        ),
        (
            key("'30a1f2c4b5d697e8091a2b3c4d5e6f70'"),
            "character 1 of 34 is `'`; or @",
        ),
        (
            key("30:a1:f2:c4:b5:d6:97:e8:09:1a:2b:3c:4d:5e:6f:70"),
            "character 3 of 47 is `:`; or @",
        ),
        (key("@30a1f2c4b5d697e8091a2b3c4d5e6f70"), NAME),
        (table(KEY), NAME),
        (table("@30a1f2c4b5d697e8091a2b3c4d5e6f70"), NAME),
        (
            table("key:30a1f2c4b5d697e8091a2b3c4d5e6f70"),
            "a word of 36 letters that may hold a key is no interface",
        ),
        (
            table("1:30a1f2c4b5d697e8091a2b3c4d5e6f70:up"),
            "a word of 37 letters that may hold a key is no interface",
        ),
        (
            step(&["--table", "1:parent:up", KEY]),
            "a word of 32 letters that may hold a key is one word too many",
        ),
        (
            step(&["--table", "1:parent:up", "--kye", KEY]),
            "`--kye` is not an option of this command, but --key is",
        ),
        (
            step(&["--kye=30a1f2c4b5d697e8091a2b3c4d5e6f70"]),
            "`--kye` is not an option of this command, but --key is",
        ),
        (
            step(&["--key30a1f2c4b5d697e8091a2b3c4d5e6f70"]),
            "a word of 37 letters that may hold a key is not an option",
        ),
        (
            step(&["--key:30a1f2c4b5d697e8091a2b3c4d5e6f70"]),
            "a word of 38 letters that may hold a key is not an option",
        ),
        (
            step(&["-30a1f2c4b5d697e8091a2b3c4d5e6f70"]),
            "a word of 33 letters that may hold a key is not an option",
        ),
        (step(&["--plan", KEY, "--station", "0"]), NAME),
        (
            step(&["--plan", "site.plan", "--station", KEY]),
            "a word of 32 letters that may hold a key is no place in a plan",
        ),
        (
            vec![
                "step",
                "good.path",
                "--plan",
                "site.plan",
                "--station",
                "0",
                "--interface",
                KEY,
            ],
            WORD,
        ),
        (
            vec![
                "step",
                "good.path",
                "--plan",
                "site.plan",
                "--station",
                "0",
                "--now",
                KEY,
            ],
            WORD,
        ),
        (
            vec!["step", KEY, "--plan", "site.plan", "--station", "0", "--now", "1"],
            NAME,
        ),
        (
            vec!["journey", "good.path", KEY, "--earliest", "1", "--latest", "2"],
            NAME,
        ),
        (
            vec!["journey", "good.path", "site.plan", "--earliest", KEY, "--latest", "2"],
            WORD,
        ),
        (
            vec!["journey", "--batch", KEY, "--earliest", "1", "--latest", "2"],
            NAME,
        ),
        (
            vec![
                "journey",
                "--batch",
                "plan.txt",
                KEY,
                "--earliest",
                "1",
                "--latest",
                "2",
            ],
            "does not go with --batch",
        ),
        (vec!["sign", "good.txt", "--plan", KEY, "-o", "x"], NAME),
        (
            vec!["show", "good.path", "--edition", KEY],
            "a word of 32 letters that may hold a key is no edition",
        ),
        (vec!["show", KEY], NAME),
        (vec!["plan", "--show", KEY], NAME),
        (vec![KEY], "a word of 32 letters that may hold a key is not a command"),
        (
            vec!["help", KEY],
            "a word of 32 letters that may hold a key is not a command",
        ),
    ] {
        assert_silent(&folder, &call, says);
    }
    // A file that is there has a name that is no secret, and so has one with a date.
    folder.write(KEY, "some words");
    assert!(folder
        .run(&format!("show {KEY}"))
        .err
        .starts_with(&format!("rehearse: {KEY} is text")));
    assert!(folder
        .run("show site-20261116.path")
        .err
        .contains("site-20261116.path is not there"));
    let ran = folder.run("step good.path --plan site.plan --station 0 --now 17948091000");
    assert!(
        ran.err.contains("--now: `17948091000` is more than 4294967295"),
        "{ran:?}"
    );
}

#[test]
fn a_key_in_the_wrong_place_of_a_text_is_not_told() {
    let folder = Folder::with_site();
    let pairs: Vec<&str> = (0..16).map(|at| &KEY[2 * at..2 * at + 2]).collect();
    let (half, rest) = KEY.split_at(16);
    for (command, text, says) in [
        (
            "plan",
            format!("station\nkey {}", &KEY[1..]),
            "line 2: write 32 hex digits behind `key`, not 31",
        ),
        (
            "plan",
            format!("station\nkey 0x{KEY}"),
            "line 2: write 32 hex digits behind `key`: character 2 of 34 is `x`",
        ),
        (
            "plan",
            format!("station\nkey key={KEY}"),
            "line 2: write 32 hex digits behind `key`: character 1 of 36 is `k`",
        ),
        ("plan", format!("station\nkey \"{KEY}\""), "character 1 of 34 is `\"`"),
        (
            "plan",
            format!("station\nkey {half} {rest}"),
            "line 2: write one word behind `key`",
        ),
        (
            "plan",
            format!("station\nkey {half}\n{rest}"),
            "line 2: write 32 hex digits behind `key`, not 16",
        ),
        (
            "plan",
            format!("station\nKey {KEY}"),
            "line 2: write `key` in small letters",
        ),
        (
            "plan",
            format!("station\n{KEY}"),
            "line 2: a word of 32 letters that may hold a key is not known here",
        ),
        (
            "plan",
            format!("station\nkey={KEY}"),
            "line 2: a word of 36 letters that may hold a key is not known here",
        ),
        (
            "plan",
            format!("station\nkey{KEY}"),
            "line 2: a word of 35 letters that may hold a key is not known here",
        ),
        (
            "plan",
            format!("station\n0x{}", pairs.join(",0x")),
            "letters that may hold a key is not known here",
        ),
        ("plan", format!("station {KEY}"), "line 1: write `station` alone"),
        (
            "plan",
            format!("station\narrival {KEY}"),
            "line 2: a word of 32 letters that may hold a key is no whole number",
        ),
        (
            "plan",
            format!("station\ninterface {KEY}"),
            "line 2: write `interface 1 child up`",
        ),
        ("plan", format!("station\ninterface {KEY} child up"), WORD),
        ("plan", format!("station\ninterface 1 {KEY} up"), WORD),
        ("plan", format!("station\ninterface 1 child {KEY}"), WORD),
        ("plan", format!("station\ninterface 1 state {KEY}"), WORD),
        (
            "plan",
            format!("key {KEY}"),
            "line 1: a plan starts with the word `station`",
        ),
        (
            "sign",
            KEY.into(),
            "line 1: write `path` or `segment` on a line of its own before a word of 32 letters",
        ),
        ("sign", format!("path\n{KEY}"), WORD),
        ("sign", format!("path\ncurr_hf {KEY}"), WORD),
        ("sign", format!("segment\n{KEY}"), WORD),
        (
            "sign",
            format!("segment\nseg_id {KEY}"),
            "line 2: write 4 hex digits behind `seg_id`, not 32",
        ),
        (
            "sign",
            format!("segment\ncons_dir {KEY}"),
            "line 2: write `cons_dir yes` or `cons_dir no`",
        ),
        ("sign", format!("segment\ntimestamp {KEY}"), WORD),
        (
            "sign",
            format!("segment\ntimestamp {}", pairs.join(" ")),
            "a word of 47 letters that may hold a key is no time",
        ),
        (
            "sign",
            format!("segment\nhop {KEY}"),
            "line 2: a word of 32 letters that may hold a key has nothing behind it",
        ),
        ("sign", format!("segment\nhop {KEY} 1"), WORD),
        ("sign", format!("segment\nhop in {KEY}"), WORD),
        ("sign", format!("segment\nhop lasts {KEY}"), WORD),
        ("sign", format!("segment\nhop alert {KEY}"), WORD),
        (
            "sign",
            format!("segment\nhop mac {KEY}"),
            "line 2: write 12 hex digits behind `mac`, not 32",
        ),
        (
            "sign",
            format!("segment\nhop reserved_flags {KEY}"),
            "line 2: write 2 hex digits behind `reserved_flags`, not 32",
        ),
        ("sign", format!("behind {KEY}O"), "is `O` and no hex digit"),
    ] {
        folder.write("text", text);
        assert_silent(&folder, &[command, "text", "-o", "x"], says);
        let table = [
            "step",
            "good.path",
            "--table",
            "text",
            "--key",
            "000102030405060708090a0b0c0d0e0f",
        ];
        assert_silent(
            &folder,
            &[&table[..], &["--interface", "0", "--now", "1"]].concat(),
            "text, line ",
        );
    }
    for (text, says) in [
        (KEY[1..].to_string(), "--key: text: write 32 hex digits, not 31"),
        (
            format!("0x{KEY}\n"),
            "--key: text: write 32 hex digits: character 2 of 35 is `x` (leave out the `0x`)",
        ),
        (
            format!("key {KEY}\n"),
            "--key: text: write 32 hex digits: character 1 of 37 is `k`",
        ),
    ] {
        folder.write("text", text);
        let step = [
            "step",
            "good.path",
            "--table",
            "1:parent:up",
            "--interface",
            "0",
            "--now",
            "1",
            "--key",
            "@text",
        ];
        assert_silent(&folder, &step, says);
    }
    // A plan as hex text with a letter that is no digit.
    folder.write(
        "text",
        to_hex(&folder.read("site.plan")).replace("30a1f2c4", "3Oa1f2c4"),
    );
    for call in [&["show", "text"][..], &["plan", "--show", "text"], &["reverse", "text"]] {
        assert_silent(&folder, call, "is `O` and no hex digit");
    }
    assert_silent(
        &folder,
        &["show", "plan.txt"],
        "plan.txt is the text form of a plan and no path",
    );
}

#[test]
fn a_plan_or_a_key_in_the_place_of_a_path_is_not_told() {
    let folder = Folder::with_site();
    let plan = folder.read("site.plan");
    folder.write("plan.hex", to_hex(&plan));
    // A plan that is not sound has keys as well.
    folder.write("cut.plan", &plan[..60]);
    folder.write("slip.plan", [&plan[..9], &[7], &plan[10..]].concat());
    folder.write("late.plan", [&plan[..35], &[7], &plan[36..]].concat());
    folder.write("key", from_hex(KEY));
    folder.write("key.hex", KEY);
    for (name, says) in [
        (
            "site.plan",
            "site.plan is a plan by its bytes: `rehearse plan --show` shows it",
        ),
        ("plan.hex", "plan.hex is a plan by its bytes"),
        ("cut.plan", "cut.plan is a plan by its bytes"),
        ("slip.plan", "slip.plan is a plan by its bytes"),
        ("late.plan", "late.plan is a plan by its bytes"),
        ("plan.txt", "plan.txt is the text form of a plan and no path"),
        ("plan.txt --raw", "plan.txt is the text form of a plan and no path"),
        (
            "key",
            "key has 16 bytes, as a key has: a path with a hop has 24 or more",
        ),
        ("key.hex", "key.hex has 16 bytes, as a key"),
    ] {
        for command in [
            "show",
            "reverse",
            "expiration",
            "sign --show",
            "step",
            "ingress",
            "egress",
        ] {
            // Nothing of a path is shown there, so that one cut to 16 bytes gets its answer.
            if command == "expiration" && name.starts_with("key") {
                continue;
            }
            let mut call: Vec<&str> = command.split(' ').chain(name.split(' ')).collect();
            if matches!(command, "step" | "ingress" | "egress") {
                call.extend("--table 1:child:up --key @key --interface 0 --now 1".split(' '));
            }
            assert_silent(&folder, &call, says);
        }
    }
    // A call that says how the bytes are written means a path.
    folder.write("cut.path", &folder.read("good.path")[..16]);
    for call in [
        "expiration cut.path",
        "show cut.path --raw",
        "expiration site.plan --raw",
    ] {
        let ran = folder.run(call);
        assert!(ran.status < 2 && ran.err.is_empty(), "{call}: {ran:?}");
    }
}

/// A key with spaces in it, its second part of decimal digits alone; a file of that name is named.
#[test]
fn half_a_key_is_not_told() {
    let folder = Folder::with_site();
    let call = "step good.path --table 1:parent:up --key 30a1f2c4 12345678 --interface 0 --now 1";
    let ran = folder.run(call);
    assert!(
        ran.status == 2
            && ran
                .err
                .contains("word 7 of the call, a word of 8 letters that may hold a key"),
        "{ran:?}"
    );
    assert!(!ran.err.contains("12345678"), "{ran:?}");
    folder.write("12345678", "");
    assert!(folder.run(call).err.contains("`12345678` is one word too many"));
}

/// Path and plan exchanged: nothing that is read of the plan as of a path is told, in whatever digits.
#[test]
fn a_plan_in_the_place_of_a_path_is_not_told_in_numbers() {
    let folder = Folder::with_site();
    let keys: Vec<Vec<u8>> = folder
        .text("plan.txt")
        .lines()
        .filter_map(|line| Some(from_hex(line.trim().strip_prefix("key ")?)))
        .collect();
    let of_key = |number: u16| {
        keys.iter()
            .any(|key| key.windows(2).any(|pair| pair == number.to_be_bytes()))
    };
    for call in [
        "journey site.plan good.path --earliest 1 --latest 2",
        "journey site.plan site.plan --earliest 1 --latest 2 --json",
    ] {
        let ran = folder.run(call);
        let said = ran.out + &ran.err;
        let numbers = said.split(|letter: char| !letter.is_ascii_digit());
        let told = numbers
            .filter_map(|number| number.parse().ok())
            .find(|&number| number >= 1_000 && of_key(number));
        assert_eq!((ran.status, told), (1, None), "{call}: {said}");
    }
}

#[test]
fn a_list_that_is_a_plan_is_not_told() {
    let folder = Folder::with_site();
    let plan = folder.text("plan.txt");
    let keys: Vec<String> = plan
        .lines()
        .filter_map(|line| Some(line.trim().strip_prefix("key ")?.into()))
        .collect();
    assert_eq!(keys.len(), 4);
    folder.write(
        "list",
        format!("key {KEY}\n{KEY} site.plan\ngood.path {KEY}\ngood.path site.plan\n"),
    );
    let ran = folder.run(&format!("journey --batch list {READINGS}"));
    assert_eq!(
        ran.out,
        "not read    list, line 1: key is not there: check the name and the folder that you are in\n\
         not read    list, line 2: a name of 32 letters that may hold a key is not there: check the name and the folder that \
         you are in\n\
         not read    list, line 3: a name of 32 letters that may hold a key is not there: check the name and the folder that \
         you are in\n\
         passed      good.path site.plan\n\
         4 journeys: 1 passed, 0 not passed, 0 refused, 3 not read\n"
    );
    let mut random = Random(3);
    for at in 0..150 {
        let mut text: Vec<char> = plan.chars().collect();
        for _ in 0..at % 20 {
            let place = random.below(text.len() as u64) as usize;
            match random.below(3) {
                0 => text[place] = SLIPS[random.below(7) as usize],
                1 => text.insert(place, SLIPS[random.below(7) as usize]),
                _ => drop(text.remove(place)),
            }
        }
        folder.write("list", text.iter().collect::<String>());
        for json in ["", " --json"] {
            let call = format!("journey --batch list {READINGS}{json}");
            let ran = folder.run(&call);
            assert_no_key(&ran, &[&call], &keys);
            assert!(json.is_empty() || ran.out.lines().map(parse).count() > 1);
        }
    }
}
