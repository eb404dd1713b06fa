//! The other answers as they stand on the screen, JSON of every command, inputs in every form, and lists of journeys.

mod common;

use common::json::{parse, Value};
use common::{expect, to_hex, Folder};

const GUIDE: &str = include_str!("../../../docs/GUIDE.md");
const HALL_A: &str = "--table 1:parent:up --key 30a1f2c4b5d697e8091a2b3c4d5e6f70 --interface 0 --now 1794809100";
const READINGS: &str = "--earliest 1794809100 --latest 2026-11-16T11:00:00Z";

/// The example's files, and some more that lists of journeys need.
fn folder() -> Folder {
    let folder = Folder::with_site();
    folder.write("key.hex", "30a1f2c4 b5d697e8 091a2b3c 4d5e6f70\n");
    folder.write("key", common::from_hex("30a1f2c4b5d697e8091a2b3c4d5e6f70"));
    folder.write("table.txt", "# hall A\ninterface 1 parent up\n");
    let good = String::from_utf8(folder.read("good.txt")).unwrap();
    folder.write("ask.txt", good.replace("out 1 lasts 6h", "out 1 lasts 6h alert egress"));
    folder.write(
        "answer.txt",
        good.replace("in 11 out 0 lasts 6h", "in 11 out 0 lasts 6h alert ingress"),
    );
    for name in ["ask", "answer"] {
        folder.run(&format!("sign {name}.txt --plan plan.txt -o {name}.path"));
    }
    folder.write("with space.path", folder.read("good.path"));
    folder.write(
        "list",
        "# journeys\ngood.path site.plan\nlate.path plan.txt\n\nask.path site.plan\nwith space.path\tsite.plan\nnope site.plan\n",
    );
    folder.write("list-good", "good.path site.plan\n");
    folder.write("list-late", "good.path site.plan\nlate.path site.plan\n");
    folder
}

const CALLS: [&str; 23] = [
    "show good.path",
    "step good.path HALL_A --write next.path",
    "step good.path HALL_A --ignore-macs",
    "ingress good.path HALL_A",
    "egress good.path --table 1:parent:up --key 30a1f2c4b5d697e8091a2b3c4d5e6f70 --interface 1 --now 1794809100",
    "egress ask.path --table 1:parent:up --key 30a1f2c4b5d697e8091a2b3c4d5e6f70 --interface 1 --now 1794809100",
    "step ask.path HALL_A",
    "step answer.path HALL_A --ignore-macs --write answer-core.path",
    "step answer-core.path --table 11:child:up,12:child:up --key 31b2e3d4c5f6a7980a1b2c3d4e5f6071 --interface 11 --now 1794809100 --ignore-macs",
    "step next.path --table 11:child:up,12:child:up,13:child:down --key 31b2e3d4c5f6a7980a1b2c3d4e5f6071 --interface 11 --now 1794809100",
    "step good.path --table 1:parent:down --key 30a1f2c4b5d697e8091a2b3c4d5e6f70 --interface 0 --now 1794809100",
    "reverse good.path",
    "expiration good.path",
    "journey good.path site.plan READINGS",
    "journey late.path site.plan READINGS",
    "journey ask.path site.plan READINGS",
    "plan plan.txt -o out.plan",
    "plan --show site.plan",
    "sign good.txt --plan plan.txt -o out.path",
    "sign --show good.path",
    "sign good.txt -o out.path",
    "demo --write again",
    "show nope",
];

#[test]
fn each_answer_stands_on_the_screen_as_stored() {
    let folder = folder();
    let calls = CALLS.map(|call| call.replace("HALL_A", HALL_A).replace("READINGS", READINGS));
    expect("answers.txt", &calls.map(|call| folder.transcript(&call)).concat());
    expect("demo.txt", &folder.transcript("demo"));
}

#[test]
fn each_answer_is_one_json_object_with_the_same_names() {
    let folder = folder();
    let mut all = String::new();
    for call in CALLS.iter().chain(&[
        "demo",
        "show good.txt",
        "step good.path",
        "plan plan.txt",
        "sign good.txt",
    ]) {
        let call = call.replace("HALL_A", HALL_A).replace("READINGS", READINGS);
        let text = folder.run(&call);
        let ran = folder.run(&format!("{call} --json"));
        assert_eq!(ran.out.lines().count(), 1, "{call}");
        let answer = parse(&ran.out);
        assert_eq!(answer.text("command"), call.split(' ').next().unwrap(), "{call}");
        answer.number("number");
        let is_mistake = answer.text("answer") == "mistake";
        assert_eq!(ran.status == 2, is_mistake, "{call}");
        // Without -o the bytes are in the object.
        if !call.ends_with("n.txt") && !call.ends_with("good.txt") {
            assert_eq!(ran.status, text.status, "{call}");
        }
        if is_mistake {
            assert_eq!(ran.err, format!("rehearse: {}\n", answer.text("sentence")));
        }
        names(&answer, &mut |name| {
            assert!(GUIDE.contains(&format!("`{name}`")), "the guide lacks `{name}`")
        });
        all += &ran.out;
    }
    expect("answers.json", &all);
}

/// Goes through the names of a value and of all values in it.
fn names(value: &Value, name: &mut impl FnMut(&str)) {
    match value {
        Value::List(items) => items.iter().for_each(|item| names(item, name)),
        Value::Object(members) => members.iter().for_each(|(member, value)| {
            name(member);
            names(value, name);
        }),
        _ => {}
    }
}

#[test]
fn the_header_s_fields_are_in_json() {
    let shown = parse(&folder().run("show good.path --json").out);
    assert_eq!((shown.text("answer"), shown.number("number")), ("whole", None));
    assert_eq!(shown.number("ends_before_byte"), Some(80));
    let Some(Value::List(segments)) = shown.get("segments") else {
        panic!("{shown:?}")
    };
    assert_eq!(segments[0].get("cons_dir"), Some(&Value::Flag(false)));
    assert_eq!(segments[0].text("timestamp_date"), "2026-11-16T06:00:00Z");
    let Some(Value::List(hops)) = segments[1].get("hops") else {
        panic!("{shown:?}")
    };
    assert_eq!((hops[1].number("in"), hops[1].number("out")), (Some(21), Some(22)));
    assert_eq!(hops[1].text("ends_date"), "2026-11-16T12:00:00Z");
}

/// A header in which no two fields are alike, in words and in JSON.
#[test]
fn each_field_is_shown_as_it_is() {
    let folder = Folder::new();
    folder.write(
        "odd.hex",
        "01 a4 20 80  f70b 1234 00000400  0a0c 5678 00000800
         f6 01 0003 0004 0102030405a6  fb 00 0005 0006 1112131415b6  fd 02 0007 0008 2122232425c6  05 03 0009 000a 3132333435d6  ff",
    );
    let shown = folder.run("show odd.hex");
    assert_eq!((shown.status, &shown.err[..]), (0, ""));
    for line in [
        "whole: a header of 68 bytes, and 1 byte behind it",
        "    indices      CurrINF 0, CurrHF 1",
        "    lengths      2, 2, 0: 4 hops, 2 info fields",
        "    reserved     41 (6 bits)",
        "    P            set: a peering segment",
        "    C            set: travelled as constructed",
        "    SegID        1234",
        "    timestamp    1970-01-01T00:17:04Z (1024)",
        "    reserved     flag bits f4, byte 0b",
        "    hop 0        in 3, out 4; ends 1970-01-01T00:28:19Z (ExpTime 1); ingress alert",
        "                 MAC 0102030405a6; reserved flag bits f4; bytes 20 to 31",
        "    hop 1        in 5, out 6; ends 1970-01-01T00:22:41Z (ExpTime 0); ingress and egress alert",
        "    C            clear: travelled against construction",
        "    reserved     flag bits 08, byte 0c",
        "    hop 2        in 8, out 7; ends 1970-01-01T00:51:00Z (ExpTime 2); ingress alert",
        "    hop 3        in 10, out 9; ends 1970-01-01T00:56:38Z (ExpTime 3); ingress alert",
    ] {
        assert!(shown.out.lines().any(|said| said == line), "{line}\n{}", shown.out);
    }
    let json = folder.run("show odd.hex --json").out;
    for part in [
        r#""curr_inf":0,"curr_hf":1,"reserved":41,"lengths":[2,2,0],"#,
        r#""cons_dir":true,"peering":true,"seg_id":"1234","timestamp":1024,"#,
        r#""timestamp_date":"1970-01-01T00:17:04Z","reserved_flags":"f4","reserved":"0b","#,
        r#""index":0,"in":3,"out":4,"exp_time":1,"ends":1699,"ends_date":"1970-01-01T00:28:19Z","#,
        r#""ingress_alert":true,"egress_alert":false,"reserved_flags":"f4","mac":"0102030405a6"}"#,
        r#""ingress_alert":true,"egress_alert":true,"reserved_flags":"f8","mac":"1112131415b6"}"#,
        r#""cons_dir":false,"peering":true,"seg_id":"5678","timestamp":2048,"#,
        r#""index":2,"in":8,"out":7,"exp_time":2,"#,
        r#""ingress_alert":true,"egress_alert":false,"reserved_flags":"fc","mac":"2122232425c6"}"#,
        r#""bytes_read":69,"bytes_behind":1,"#,
    ] {
        assert!(json.contains(part), "{part}\n{json}");
    }
}

#[test]
fn inputs_are_the_same_in_every_form() {
    let folder = folder();
    let path = folder.read("good.path");
    let hex: String = path.iter().map(|byte| format!("{byte:02X}\n ")).collect();
    folder.write("good.hex", &hex);
    let shown = folder.run("show good.path").out;
    assert_eq!(folder.run("show good.hex").out, shown);
    assert_eq!(folder.run("show good.hex --hex").out, shown);
    assert_eq!(folder.run("show good.path --raw").out, shown);
    assert_eq!(folder.call(&["show", "-"], &path).out, shown);
    assert_eq!(folder.call(&["show", "-"], hex.as_bytes()).out, shown);
    assert_eq!(folder.call(&["show", "--", "good.path"], b"").out, shown);

    let step = folder.run(&format!("step good.path {HALL_A}")).out;
    for other in [
        "--table table.txt --key @key --interface 0 --now 2026-11-16t06:05:00z",
        "--table @table.txt --key @key.hex --interface 0 --now=1794809100",
        "--now 2026-11-16T06:05Z --interface=0 --key 30A1F2C4B5D697E8091A2B3C4D5E6F70 --table=1:state:5",
    ] {
        assert_eq!(folder.run(&format!("step good.path {other}")).out, step, "{other}");
    }

    let mut words: Vec<&str> = "step good.path --table 1:parent:up --interface 0 --now 1794809100 --key"
        .split(' ')
        .collect();
    words.push("30a1f2c4 b5d697e8 091a2b3c 4d5e6f70");
    assert_eq!(folder.call(&words, b"").out, step);

    let journey = folder.run(&format!("journey good.path site.plan {READINGS}")).out;
    folder.run("plan plan.txt -o plan.hex");
    for plan in ["plan.txt", "plan.hex"] {
        assert_eq!(folder.run(&format!("journey good.path {plan} {READINGS}")).out, journey);
    }
    let text = folder.read("plan.txt");
    let words: Vec<&str> = "journey good.path - --earliest 1794809100 --latest 1794826800"
        .split(' ')
        .collect();
    assert_eq!(folder.call(&words, &text).out, journey);

    // Bytes behind the header are left alone, and written as they were.
    let long = [&path[..], &[0xab; 1000]].concat();
    folder.write("long.path", &long);
    let ran = folder.run(&format!("step long.path {HALL_A} --write left --json"));
    let (answer, left) = (parse(&ran.out), folder.read("left"));
    assert_eq!(answer.number("bytes_behind"), Some(1000));
    assert_eq!((left.len(), &left[80..]), (1080, &long[80..]));
    assert_eq!(answer.text("path"), to_hex(&left[..80]));
}

#[test]
fn a_file_is_written_raw_or_as_hex_text_by_its_name() {
    let folder = folder();
    let path = folder.read("good.path");
    folder.run("sign good.txt --plan plan.txt -o good.hex");
    let text = String::from_utf8(folder.read("good.hex")).unwrap();
    let sizes: Vec<usize> = text.lines().map(|line| line.len() / 2).collect();
    assert_eq!(sizes, [4, 8, 8, 12, 12, 12, 12, 12]);
    assert_eq!(text.replace('\n', ""), to_hex(&path));
    assert_eq!(folder.run("sign good.txt --plan plan.txt -o -").out, text);

    folder.run("plan plan.txt -o plan.hex");
    let text = String::from_utf8(folder.read("plan.hex")).unwrap();
    assert!(text.lines().all(|line| line.len() == 64));
    assert_eq!(text.replace('\n', ""), to_hex(&folder.read("site.plan")));
    assert_eq!(folder.run("plan plan.txt -o -").out, text);

    folder.run("reverse good.path --write back");
    folder.run("reverse good.path --write back.hex");
    let text = String::from_utf8(folder.read("back.hex")).unwrap();
    assert_eq!(text.replace('\n', ""), to_hex(&folder.read("back")));
}

#[test]
fn a_list_of_journeys_has_a_line_each_and_a_summary() {
    let folder = folder();
    let mut said = folder.transcript(&format!("journey --batch list {READINGS}"));
    said += &folder.transcript(&format!("journey --batch list-good {READINGS}"));
    said += &folder.transcript(&format!("journey --batch list-late {READINGS}"));
    expect("batch.txt", &said);
    for (list, status) in [("list", 2), ("list-good", 0), ("list-late", 1)] {
        let ran = folder.run(&format!("journey --batch {list} {READINGS} --json"));
        assert_eq!(ran.status, status, "{list}");
        let answers: Vec<Value> = ran.out.lines().map(parse).collect();
        let (summary, journeys) = answers.split_last().unwrap();
        assert_eq!(summary.text("answer"), "summary");
        assert_eq!(summary.number("journeys"), Some(journeys.len() as u64));
        for count in ["passed", "not_passed", "refused"] {
            let counted = journeys
                .iter()
                .filter(|journey| journey.text("answer") == count)
                .count();
            assert_eq!(summary.number(count), Some(counted as u64), "{list} {count}");
        }
        assert!(journeys.iter().all(|journey| journey.number("line").is_some()));
        for answer in &answers {
            names(answer, &mut |name| {
                assert!(GUIDE.contains(&format!("`{name}`")), "the guide lacks `{name}`")
            });
        }
    }
}

#[test]
fn a_long_list_is_gone_through() {
    let folder = folder();
    folder.write("long", "good.path site.plan\n".repeat(3000));
    let ran = folder.run(&format!("journey --batch long {READINGS}"));
    assert_eq!((ran.status, &ran.err[..]), (0, ""));
    assert!(ran
        .out
        .ends_with("3000 journeys: 3000 passed, 0 not passed, 0 refused, 0 not read\n"));
}
