//! The documents' examples, run: a line behind `$ ` in a block of the kind `console` is a call, the lines behind it are
//! what it writes. The README's run in the repository's folder, the guide's in an empty one.

mod common;

use common::{shell, Folder, PROGRAM};
use std::path::Path;

struct Example {
    line: usize,
    call: String,
    written: String,
}

fn examples(document: &str) -> Vec<Example> {
    let mut examples: Vec<Example> = Vec::new();
    let (mut is_inside, mut is_here_document) = (false, false);
    for (at, line) in document.lines().enumerate() {
        if line.starts_with("```") {
            is_inside = line == "```console";
        } else if !is_inside {
        } else if let Some(call) = line.strip_prefix("$ ") {
            is_here_document = call.ends_with("<<'END'");
            examples.push(Example {
                line: at + 1,
                call: call.into(),
                written: String::new(),
            });
        } else if let Some(example) = examples.last_mut() {
            let into = if is_here_document {
                &mut example.call
            } else {
                &mut example.written
            };
            if is_here_document {
                into.push('\n');
                *into += line;
                is_here_document = line != "END";
            } else {
                *into += line;
                into.push('\n');
            }
        }
    }
    examples
}

fn run(name: &str, folder: &Path, least: usize) {
    let root = Path::new(env!("CARGO_MANIFEST_DIR")).join("../..");
    let document = std::fs::read_to_string(root.join(name)).unwrap();
    let examples = examples(&document);
    assert!(examples.len() >= least, "{name} has {} examples", examples.len());
    for Example { line, call, written } in examples {
        let ran = shell(Path::new(PROGRAM), folder, &format!("exec 2>&1\n{call}"));
        assert_eq!(ran.out, written, "{name}, line {line}: {call}");
    }
}

#[test]
fn the_readme_s_examples_run() {
    run("README.md", &Path::new(env!("CARGO_MANIFEST_DIR")).join("../.."), 4);
}

#[test]
fn the_guide_s_examples_run_in_an_empty_folder() {
    run("docs/GUIDE.md", &Folder::new().0, 20);
}

/// A plan of one's own is not written over by the example's.
#[test]
fn the_example_writes_over_nothing_else() {
    let folder = Folder::new();
    folder.write("plan.txt", "station\n");
    let ran = folder.run("demo --write .");
    assert_eq!(ran.status, 2);
    assert!(ran.err.contains("plan.txt is there already"), "{}", ran.err);
    assert_eq!(folder.read("plan.txt"), b"station\n");
    assert!(!folder.0.join("good.txt").exists());
}

/// The calls that the demonstration shows can be typed, and write what it shows.
#[test]
fn the_demonstration_s_calls_can_be_typed() {
    let folder = Folder::new();
    let shown = folder.run("demo").out;
    assert_eq!(folder.run("demo --write .").status, 0);
    let calls: Vec<&str> = shown
        .lines()
        .filter_map(|line| line.strip_prefix("    $ rehearse "))
        .collect();
    assert_eq!(calls.len(), 10);
    for call in calls {
        let ran = folder.run(call);
        let indented: String = ran.out.lines().map(|line| format!("    {line}\n")).collect();
        assert!(
            shown.contains(&format!("    $ rehearse {call}\n{indented}")),
            "{call}: {}",
            ran.out
        );
    }
}
