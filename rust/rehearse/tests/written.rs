//! What is written, and what is not: a file that a call reads is never written, nor a text; no option becomes a file's name;
//! a file is whole.

mod common;

use common::Folder;
use std::io::Write;

const STEP: &str = "--table table.txt --key @key --interface 0 --now 1794809100";

fn folder() -> Folder {
    let folder = Folder::with_site();
    folder.write("table.txt", "interface 1 parent up\n");
    folder.write("key", "30a1f2c4b5d697e8091a2b3c4d5e6f70\n");
    std::fs::create_dir(folder.0.join("sub")).unwrap();
    #[cfg(unix)]
    for name in ["plan.txt", "good.txt", "good.path", "key"] {
        std::os::unix::fs::symlink(name, folder.0.join(format!("link-{name}"))).unwrap();
    }
    folder
}

fn names(folder: &Folder) -> Vec<String> {
    let entries = std::fs::read_dir(&folder.0).unwrap();
    let mut names: Vec<String> = entries
        .map(|entry| entry.unwrap().file_name().to_string_lossy().into_owned())
        .collect();
    names.sort();
    names
}

#[test]
fn a_file_that_is_read_is_not_written() {
    let folder = folder();
    let files = ["plan.txt", "good.txt", "good.path", "site.plan", "table.txt", "key"];
    let before = files.map(|name| folder.read(name));
    let mut calls: Vec<String> = [
        "plan plan.txt -o plan.txt",
        "plan plan.txt -o sub/../plan.txt",
        "sign good.txt --plan plan.txt -o good.txt",
        "sign good.txt --plan plan.txt -o ./plan.txt",
        "sign good.txt --plan site.plan -o site.plan",
        "reverse good.path --write good.path",
    ]
    .map(String::from)
    .into();
    for out in ["good.path", "./good.path", "table.txt", "key"] {
        for command in ["step", "ingress", "egress"] {
            calls.push(format!("{command} good.path {STEP} --write {out}"));
        }
    }
    if cfg!(unix) {
        calls.push("plan plan.txt -o link-plan.txt".into());
        calls.push("plan link-plan.txt -o plan.txt".into());
        calls.push("reverse good.path --write link-good.path".into());
        calls.push(format!("step good.path {STEP} --write link-key"));
    }
    for call in calls {
        let ran = folder.run(&call);
        assert_eq!((ran.status, &ran.out[..]), (2, ""), "{call}");
        assert!(
            ran.err.contains("is a file that this call reads"),
            "{call}: {}",
            ran.err
        );
        assert!(files.map(|name| folder.read(name)) == before, "{call}");
    }
    // Another file may be written over.
    assert_eq!(folder.run("reverse good.path --write late.path").status, 0);
    assert_eq!(folder.run("reverse good.path --write late.path").status, 0);
}

/// Standard input has a name on systems that tell it.
#[test]
fn a_file_behind_standard_input_is_not_written() {
    if !std::path::Path::new("/proc/self/fd").exists() {
        return;
    }
    let folder = folder();
    let before = folder.read("plan.txt");
    let ran = folder.shell("rehearse plan - -o plan.txt < plan.txt");
    assert_eq!((ran.status, folder.read("plan.txt")), (2, before));
    // A device may be both.
    assert_eq!(folder.run("sign /dev/null -o /dev/null").status, 1);
}

#[test]
fn an_option_is_no_value_unless_it_is_tied_to_its_option() {
    let folder = folder();
    let before = names(&folder);
    for call in [
        "plan plan.txt -o --json".to_string(),
        "sign good.txt -o --plan plan.txt".into(),
        format!("step good.path {STEP} --write --raw"),
        "step good.path --table 1:parent:up --interface --key 00 --now 1".into(),
        "journey --batch --earliest 1 --latest 2".into(),
        "plan --show --json site.plan".into(),
        "plan plan.txt -o --unheard-of".into(),
        "reverse good.path --write --".into(),
    ] {
        let ran = folder.run(&call);
        assert_eq!(ran.status, 2, "{call}");
        assert!(ran.err.contains("needs a value behind it"), "{call}: {}", ran.err);
        assert_eq!(names(&folder), before, "{call}");
    }
    assert_eq!(folder.run("plan plan.txt -o=--json").status, 0);
    assert_eq!(folder.read("--json"), folder.read("site.plan"));
    // Behind -- nothing is an option.
    let shown = folder.run("plan --show site.plan").out;
    assert_eq!(folder.run("plan --show=--json").out, shown);
    folder.write("--raw", folder.read("good.path"));
    assert_eq!(folder.run("show -- --raw").out, folder.run("show good.path").out);
    folder.write("--json", folder.read("good.path"));
    assert_eq!(folder.run("show -- --json").out, folder.run("show good.path").out);
}

#[test]
fn an_empty_name_is_said() {
    let folder = folder();
    for words in [
        &["show", ""][..],
        &["plan", "plan.txt", "-o", ""],
        &["reverse", "good.path", "--write="],
    ] {
        let ran = folder.call(words, b"");
        assert_eq!(ran.status, 2, "{words:?}");
        assert!(ran.err.contains("is empty"), "{words:?}: {}", ran.err);
    }
}

#[test]
fn a_text_is_not_written_over() {
    let folder = Folder::with_site();
    folder.write("marked.txt", format!("\u{feff}{}", folder.text("good.txt")));
    folder.write("typo.txt", "statoin\n");
    folder.write("table.txt", "interface 1 child up\n");
    folder.write("umlauts.txt", "# \u{fc}".repeat(40_000));
    folder.write("latin.txt", b"# a plan of K\xfchlhalle\nstation\n");
    let plan = folder.text("plan.txt");
    folder.write("page.txt", plan.replace("station", "\u{c}station"));
    folder.write("colour.txt", plan.replace("station", "\u{1b}[1mstation\u{1b}[0m"));
    folder.write("nul.txt", plan.replacen("station", "\0station", 1));
    folder.write("start.txt", format!("\u{1}{plan}"));
    folder.write(
        "wide.txt",
        plan.encode_utf16().flat_map(u16::to_le_bytes).collect::<Vec<u8>>(),
    );
    // The first letter that is no hex digit stands far behind.
    folder.write("behind.txt", "00 ".repeat(30_000) + "station\n");
    for call in [
        "plan plan.txt -o good.txt",
        "sign good.txt --plan site.plan -o late.txt",
        "reverse good.path --write plan.txt",
        "reverse good.path --write marked.txt",
        "reverse good.path --write typo.txt",
        "plan plan.txt -o table.txt",
        "plan plan.txt -o umlauts.txt",
        "plan plan.txt -o latin.txt",
        "plan plan.txt -o page.txt",
        "plan plan.txt -o colour.txt",
        "plan plan.txt -o nul.txt",
        "plan plan.txt -o start.txt",
        "plan plan.txt -o wide.txt",
        "plan plan.txt -o behind.txt",
    ] {
        let before = folder.read(call.split(' ').next_back().unwrap());
        let ran = folder.run(call);
        assert!(
            ran.status == 2 && ran.err.contains("is a text, and writing would lose it"),
            "{call}: {ran:?}"
        );
        assert_eq!(folder.read(call.split(' ').next_back().unwrap()), before);
    }
    // Bytes and hex may be written over, also those of a header with a text behind it and others.
    let text = plan.repeat(100);
    folder.write("long.path", [folder.read("good.path"), text.into_bytes()].concat());
    folder.write("other", common::Random(1).bytes(2_000));
    for call in [
        "plan plan.txt -o site.plan",
        "sign good.txt --plan plan.txt -o x.hex",
        "sign late.txt --plan plan.txt -o x.hex",
        "reverse good.path --write long.path",
        "reverse good.path --write other",
    ] {
        assert_eq!(folder.run(call).status, 0, "{call}");
    }
}

/// A file is written whole, or what was there stays.
#[test]
fn half_a_file_is_never_left() {
    let folder = Folder::with_site();
    let mut long = folder.read("good.path");
    long.resize(8 << 20, 7);
    folder.write("long", &long);
    let before: &[u8] = b"\0\0\0\0as it was";
    folder.write("out", before);
    let ran = folder.shell("ulimit -f 1; trap '' XFSZ; rehearse reverse long --write out");
    assert_eq!(ran.status, 2, "{ran:?}");
    assert_eq!(folder.read("out"), before);
    let names: Vec<_> = std::fs::read_dir(&folder.0)
        .unwrap()
        .map(|entry| entry.unwrap().file_name())
        .collect();
    assert!(
        names.iter().all(|name| !name.to_string_lossy().contains(".part")),
        "{names:?}"
    );
    assert_eq!(folder.run("reverse long --write out").status, 0);
    assert_eq!(folder.read("out").len(), 8 << 20);
}

/// Hex text of it is not made where it is not asked for.
#[test]
fn a_long_file_is_written_in_little_memory() {
    const SIZE: usize = 16 << 20;
    let folder = Folder::with_site();
    let mut long = folder.read("good.path");
    long.resize(SIZE, 7);
    folder.write("long", &long);
    let ran = folder.shell(&format!(
        "ulimit -v {}; exec rehearse reverse long --write out",
        3 * SIZE / 1024
    ));
    assert_eq!((ran.status, folder.read("out").len()), (0, SIZE), "{}", ran.err);
}

/// Calls that write one file at the same time all write it.
#[test]
fn a_file_is_written_by_several_calls_at_once() {
    let folder = Folder::with_site();
    let ran = folder.shell("for call in 1 2 3 4 5 6; do rehearse plan plan.txt -o shared & done; wait");
    assert!(ran.err.is_empty(), "{ran:?}");
    assert_eq!(folder.read("shared"), folder.read("site.plan"));
}

/// A second hard link of what is read gets bytes of its own.
#[cfg(unix)]
#[test]
fn what_is_read_is_not_lost_through_a_hard_link() {
    let folder = Folder::with_site();
    let (path, text) = (folder.read("good.path"), folder.read("good.txt"));
    std::fs::hard_link(folder.0.join("good.path"), folder.0.join("path-link")).unwrap();
    std::fs::hard_link(folder.0.join("good.txt"), folder.0.join("text-link")).unwrap();
    assert_eq!(folder.run("reverse good.path --write path-link").status, 0);
    assert_eq!(folder.run("sign good.txt --plan site.plan -o text-link").status, 2);
    assert_eq!((folder.read("good.path"), folder.read("good.txt")), (path, text));
}

/// A link stays a link, and the rights of a file stay.
#[cfg(unix)]
#[test]
fn a_file_that_is_written_stays_what_it_is() {
    use std::os::unix::fs::{symlink, PermissionsExt};
    let folder = Folder::with_site();
    folder.write("real", "");
    std::fs::set_permissions(folder.0.join("real"), std::fs::Permissions::from_mode(0o640)).unwrap();
    symlink("real", folder.0.join("link")).unwrap();
    assert_eq!(folder.run("plan plan.txt -o link").status, 0);
    assert!(std::fs::symlink_metadata(folder.0.join("link")).unwrap().is_symlink());
    assert_eq!(folder.read("real"), folder.read("site.plan"));
    let rights = std::fs::metadata(folder.0.join("real")).unwrap().permissions().mode();
    assert_eq!(rights & 0o777, 0o640);
    // A link to nothing makes what it names, and a pipe is written as it is.
    symlink("new", folder.0.join("dangling")).unwrap();
    assert_eq!(folder.run("plan plan.txt -o dangling").status, 0);
    assert_eq!(folder.read("new"), folder.read("site.plan"));
    let pipe = common::Pipe::new(&folder, "pipe");
    assert_eq!(folder.run("plan plan.txt -o pipe").status, 0);
    assert_eq!(pipe.written(), folder.read("site.plan"));
    let long = "n".repeat(250);
    assert_eq!(folder.run(&format!("plan plan.txt -o {long}")).status, 0);
}

#[test]
fn the_example_is_written_whole_or_not_at_all() {
    let folder = Folder::new();
    for call in [&["demo", "--write="][..], &["demo", "--write", "-"]] {
        let ran = folder.call(call, b"");
        assert!(ran.status == 2 && ran.err.contains("--write takes a folder"), "{ran:?}");
    }
    for name in [
        "plan.txt",
        "late.txt",
        "peering-plan.txt",
        "site.plan",
        "late.path",
        "peering.path",
    ] {
        let in_the_way = folder.0.join("half").join(name);
        std::fs::create_dir_all(&in_the_way).unwrap();
        let ran = folder.run("demo --write half");
        assert!(
            ran.status == 2 && ran.err.contains(&format!("half/{name} is there already")),
            "{ran:?}"
        );
        assert_eq!(std::fs::read_dir(folder.0.join("half")).unwrap().count(), 1);
        std::fs::remove_dir(&in_the_way).unwrap();
        std::fs::File::create(&in_the_way).unwrap().write_all(b"mine").unwrap();
        assert_eq!(folder.run("demo --write half").status, 2);
        std::fs::remove_file(&in_the_way).unwrap();
    }
    assert_eq!(std::fs::read_dir(&folder.0).unwrap().count(), 1);
}
