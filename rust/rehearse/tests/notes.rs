//! What is said of texts in the wrong place, and of headers that `sign` writes although they are no good.

mod common;

use common::json::{parse, Value};
use common::{expect, to_hex, Folder};

/// Hex text that is almost right: the character and its place are named.
#[test]
fn hex_text_with_a_wrong_character_is_named_so() {
    let folder = Folder::with_site();
    let hex = to_hex(&folder.read("good.path"));
    let plan = to_hex(&folder.read("site.plan"));
    let spread: Vec<String> = folder
        .read("good.path")
        .iter()
        .map(|byte| format!("{byte:02x}"))
        .collect();
    for (name, text) in [
        ("one", format!("{}g{}", &hex[..20], &hex[21..])),
        ("prefix", format!("0x{hex}")),
        ("colons", spread.join(":")),
        ("bom", format!("\u{feff}{hex}")),
        (
            "dump",
            format!("00000000: {} {}  .. .....j.......\n", &hex[..16], &hex[16..32]),
        ),
        ("comment", format!("# hall A to hall B\n{hex}\n")),
        ("plan", format!("{}\n{}g{}", &plan[..64], &plan[64..70], &plan[71..])),
        ("words", "the header that hall A sends to hall B\n".into()),
    ] {
        folder.write(name, text);
    }
    let mut said = String::new();
    for name in [
        "one", "prefix", "colons", "bom", "dump", "comment", "words", "plan.txt", "good.txt",
    ] {
        said += &folder.transcript(&format!("show {name}"));
    }
    for call in [
        "show one --hex",
        "plan --show plan",
        "plan --show words",
        "plan --show good.txt",
        "plan good.txt -o x",
        "sign plan.txt -o x",
        "journey good.path plan --earliest 2026-11-16 --latest 2026-11-17",
    ] {
        said += &folder.transcript(call);
    }
    expect("almost-hex.txt", &said);
    assert_eq!(
        (said.matches("[status 2]").count(), said.matches("[status 0]").count()),
        (15, 1)
    );
    let ran = folder.call(&["show", "-"], b"segment none\n");
    assert!(ran.err.contains("`rehearse sign - --plan PLAN -o PATH`"), "{}", ran.err);
}

fn notes(folder: &Folder, call: &str) -> (i32, Vec<String>) {
    let text = folder.run(call);
    let json = folder.run(&format!("{call} --json"));
    assert_eq!(json.status, text.status, "{call}");
    let Some(Value::List(notes)) = parse(&json.out).get("notes").cloned() else {
        panic!("{}", json.out)
    };
    let notes: Vec<String> = notes
        .into_iter()
        .map(|note| match note {
            Value::Text(note) => note,
            other => panic!("{other:?}"),
        })
        .collect();
    let said: String = notes.iter().map(|note| format!("rehearse: {note}\n")).collect();
    assert_eq!(said, text.err, "{call}");
    (text.status, notes)
}

#[test]
fn what_is_odd_about_a_header_is_said() {
    let folder = Folder::with_site();
    let segment = |hops: usize| {
        "segment\ncons_dir yes\ntimestamp 1970-01-01\n".to_string()
            + &"hop in 0 out 1 lasts 6h mac 000000000000\n".repeat(hops)
    };
    folder.write("long.txt", segment(33) + &segment(32));
    let (status, said) = notes(&folder, "sign long.txt -o long");
    assert_eq!((status, said.len()), (1, 1));
    assert!(
        said[0].starts_with("the library turns this header down: refused, number 4: "),
        "{said:?}"
    );
    assert_eq!(folder.run("show long").status, 1);
    assert_eq!(parse(&folder.run("sign long.txt --json").out).number("number"), Some(4));

    folder.write("empty.txt", "# nothing yet\n");
    let (status, said) = notes(&folder, "sign empty.txt -o empty");
    assert_eq!(status, 1);
    assert_eq!(
        said,
        [
            "the library turns this header down: refused, number 5: the path has no hop 0",
            "the text has no hop: the header is the 4 bytes of a meta word"
        ]
    );

    // A plan whose second station says arrival 0, one that is too short, and one that is not needed.
    let plan = folder.text("plan.txt");
    folder.write("unsound.txt", plan.replace("arrival 11", "arrival 0"));
    let (status, said) = notes(&folder, "sign good.txt --plan unsound.txt -o x");
    assert_eq!((status, said.len()), (0, 1));
    assert!(
        said[0].starts_with("question 23 turns this plan down for every path"),
        "{said:?}"
    );
    folder.write("two.txt", segment(2));
    let (status, said) = notes(&folder, "sign two.txt --plan site.plan -o x");
    assert_eq!(status, 0);
    assert_eq!(
        said,
        [
            "the plan has 4 stations, and this path asks for 2 (hops - infos + 1)",
            "--plan had no effect: each hop has a `mac` of its own"
        ]
    );
    assert_eq!(notes(&folder, "sign good.txt --plan site.plan -o x"), (0, vec![]));
}

#[test]
fn a_plan_of_65_stations_fits_no_path() {
    let folder = Folder::new();
    let station = |arrival: usize| format!("station\narrival {arrival}\nkey 000102030405060708090a0b0c0d0e0f\n");
    folder.write("plan.txt", (0..65).map(station).collect::<String>());
    let ran = folder.run("plan plan.txt -o x");
    assert!(
        ran.err.contains("it has 65 stations, and no path has more than 64"),
        "{}",
        ran.err
    );
    assert!(folder.run("plan --show x").out.starts_with("# question 23"));
    folder.write("plan.txt", (0..64).map(station).collect::<String>());
    assert_eq!(folder.run("plan plan.txt -o x").err, "");
}

/// The limit of the bytes behind a header is the same both ways.
#[test]
fn bytes_behind_a_header_come_back_up_to_one_limit() {
    let folder = Folder::with_site();
    let good = folder.read("good.path");
    for (behind, status) in [(4_097, 0), (1 << 20, 0), ((1 << 20) + 1, 2)] {
        let bytes = [&good[..], &common::Random(9).bytes(behind)].concat();
        folder.write("path", &bytes);
        let shown = folder.run("sign --show path");
        assert_eq!(shown.status, status, "{behind}");
        if status == 2 {
            assert!(shown.err.contains("takes 1,048,576"), "{}", shown.err);
        } else {
            folder.write("text", &shown.out);
            assert_eq!(folder.run("sign text -o again").status, 0);
            assert!(folder.read("again") == bytes, "{behind}");
        }
    }
    folder.write("text", "behind ".to_string() + &"00".repeat((1 << 20) + 1));
    let ran = folder.run("sign text -o again");
    assert!(
        ran.status == 2 && ran.err.contains("more than 1,048,576 bytes"),
        "{}",
        ran.err
    );
    // A header that is turned down is answered first.
    let mut long = vec![0; 2 << 20];
    long[..4].copy_from_slice(&[0, 1, 0x65, 0x56]);
    folder.write("path", &long);
    let ran = folder.run("sign --show path");
    assert!(ran.status == 1 && ran.out.starts_with("refused, number 4"), "{ran:?}");
}
