//! The tools of the tests: no name of a folder breaks a script, nothing is waited for without end, a folder is nobody else's.
#![cfg(unix)]

mod common;

use common::{new_folder, shell, within, Folder, Pipe, PROGRAM};
use std::fs;
use std::os::unix::fs::{symlink, PermissionsExt};
use std::process::Command;
use std::time::Duration;

#[test]
fn the_program_s_folder_may_have_any_name() {
    for name in [
        "with spaces",
        "it's \"quoted\" `twice`",
        "$HOME; exit 7 & (",
        "-o *?[a] \\ #",
        "ümläute\tund\nZeilen",
    ] {
        let folder = Folder::new();
        let place = folder.0.join(name);
        let program = place.join("rehearse");
        fs::create_dir(&place).unwrap();
        symlink(PROGRAM, &program).unwrap();
        let ran = shell(&program, &folder.0, "command -v rehearse");
        assert_eq!(ran.out, format!("{}\n", program.display()), "{name}");
        let ran = shell(
            &program,
            &folder.0,
            "rehearse demo --write . >said && rehearse plan - -o again <plan.txt >>said && cmp again site.plan && rehearse show nope",
        );
        assert_eq!(
            (ran.status, ran.out.as_str(), ran.err.starts_with("rehearse: nope")),
            (2, "", true),
            "{name}: {ran:?}"
        );
    }
}

#[test]
fn what_does_not_end_is_ended() {
    // It has a child, does not read its input, and takes no hint.
    let script = "trap '' HUP INT TERM; sleep 1000 & sleep 1000";
    let limit = Duration::from_millis(500);
    let late = within(limit, Command::new("sh").args(["-c", script]), &[0; 1 << 20]).unwrap_err();
    for part in [script, "did not end within 500ms", "and wrote"] {
        assert!(late.contains(part), "{late}");
    }
    // What is left of a script counts as well.
    let late = within(limit, Command::new("sh").args(["-c", "sleep 1000 &"]), b"").unwrap_err();
    assert!(late.contains("and wrote"), "{late}");
}

#[test]
fn a_pipe_that_nobody_writes_to_is_read() {
    let folder = Folder::new();
    assert_eq!(Pipe::new(&folder, "pipe").written(), b"");
    let pipe = Pipe::new(&folder, "other");
    assert_eq!(folder.shell("echo one >other; echo two >other").status, 0);
    assert_eq!(pipe.written(), b"one\ntwo\n");
}

#[test]
fn a_folder_is_made_where_nothing_was() {
    let parent = Folder::new();
    let mut numbers = [7, 7, 8, 9].into_iter();
    let mut next = || new_folder(&parent.0, || numbers.next().unwrap());
    let first = next();
    // A folder and a link are in the way of the second.
    let link = first.with_file_name(first.file_name().unwrap().to_str().unwrap().replace('7', "8"));
    symlink("elsewhere", &link).unwrap();
    let second = next();
    assert!(second.to_string_lossy().ends_with('9'), "{second:?}");
    for folder in [&parent.0, &first, &second] {
        assert_eq!(fs::metadata(folder).unwrap().permissions().mode() & 0o777, 0o700);
    }
    assert_ne!(Folder::new().0, Folder::new().0);
}
