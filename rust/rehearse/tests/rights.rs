//! Who may read and write what is written: keys are their owner's alone, also while they are written, and are printed only
//! where they are asked for; the rights of a file stay; what may not be replaced stays as it is.
#![cfg(unix)]

mod common;

use common::{within, Folder, Ran, HALL_A, LIMIT, PROGRAM, READINGS};
use std::fs::{self, Metadata, Permissions};
use std::os::unix::fs::{chown, symlink, MetadataExt, PermissionsExt};
use std::os::unix::process::CommandExt;
use std::path::Path;
use std::process::Command;

/// A user who is not root.
const SOMEBODY: u32 = 65_534;

fn rights(folder: &Folder, name: &str) -> u32 {
    fs::metadata(folder.0.join(name)).unwrap().permissions().mode() & 0o7777
}

fn allow(folder: &Folder, name: &str, mode: u32) {
    fs::set_permissions(folder.0.join(name), Permissions::from_mode(mode)).unwrap();
}

/// A call by somebody whom rights keep out of something, or nothing where root can't be anybody else.
fn by_somebody(folder: &Folder, call: &str) -> Option<Ran> {
    let (mut command, place) = (Command::new(PROGRAM), Folder::new());
    if fs::metadata(&folder.0).unwrap().uid() == 0 {
        // Some systems do not let root be another.
        Command::new("true").uid(SOMEBODY).status().ok()?;
        // The program may lie where only root gets to. It is copied by a process of its own: a file that is open for writing
        // can't be run, and a call of another test may have it open for a moment.
        let copied = Command::new("cp").args([PROGRAM, "."]).current_dir(&place.0).status();
        assert!(copied.unwrap().success());
        allow(&place, ".", 0o755);
        allow(&place, "rehearse", 0o755);
        command = Command::new(place.0.join("rehearse"));
        command.uid(SOMEBODY).gid(SOMEBODY);
    }
    command.args(call.split(' ')).current_dir(&folder.0);
    Some(within(LIMIT, &mut command, b"").unwrap_or_else(|late| panic!("{late}")))
}

/// A new file with keys is its owner's alone; one without has the rights that the owner gives to new files.
#[test]
fn a_new_file_with_keys_is_its_owner_s_alone() {
    let folder = Folder::new();
    symlink("behind-link", folder.0.join("link")).unwrap();
    for call in [
        "demo --write .",
        "plan plan.txt -o new.plan",
        "plan plan.txt -o new.hex",
        "plan plan.txt -o link",
        "reverse good.path --write back.path",
        "sign good.txt --plan plan.txt -o good.hex",
        // A plan that is taken for a path.
        "reverse site.plan --raw --write copy; true",
        "reverse site.plan --raw --write copy.hex; true",
    ] {
        let ran = folder.shell(&format!("umask 002; rehearse {call}"));
        assert_eq!(ran.status, 0, "{call}: {ran:?}");
    }
    for name in "plan.txt peering-plan.txt site.plan new.plan new.hex behind-link copy copy.hex".split(' ') {
        assert_eq!(format!("{:o}", rights(&folder, name)), "600", "{name}");
    }
    for name in "good.txt late.txt peering.txt good.path late.path peering.path back.path good.hex".split(' ') {
        assert_eq!(format!("{:o}", rights(&folder, name)), "664", "{name}");
    }
}

/// Keys that go to a file are not printed too.
#[test]
fn keys_are_printed_only_where_they_are_asked_for() {
    let folder = Folder::with_site();
    let prints_key = |call: &str| {
        let ran = folder.run(call);
        assert_eq!((ran.status, &ran.err[..]), (0, ""), "{call}");
        ran.out.contains("30a1f2c4b5d697e8091a2b3c4d5e6f70")
    };
    for call in [
        "plan plan.txt -o out.plan --json",
        "plan plan.txt -o out.hex --json",
        "sign good.txt --plan plan.txt --json",
        "step good.path --plan plan.txt --station 0 --now 1794809100 --json",
        &format!("step good.path {HALL_A} --interface 0 --now 1794809100 --json"),
        &format!("journey good.path plan.txt {} --json", READINGS),
        "demo --write site --json",
    ] {
        assert!(!prints_key(call), "{call}");
    }
    for call in ["plan plan.txt --json", "plan plan.txt -o -", "plan --show site.plan"] {
        assert!(prints_key(call), "{call}");
    }
}

/// Whoever opens a file once can read it for good: until all is written, it is open to nobody else.
#[test]
fn what_is_being_written_is_open_to_nobody_else() {
    let folder = Folder::with_site();
    let mut long = folder.read("good.path");
    long.resize(2 << 20, 7);
    folder.write("long", &long);
    fs::create_dir(folder.0.join("sub")).unwrap();
    for (name, mode) in [("sub/private", 0o600), ("sub/open", 0o644)] {
        folder.write(name, "");
        allow(&folder, name, mode);
    }
    let parts = watched(&folder.0.join("sub"), || {
        for _ in 0..60 {
            assert_eq!(folder.run("plan plan.txt -o sub/private").status, 0);
        }
        for _ in 0..2 {
            assert_eq!(folder.run("reverse long --write sub/open").status, 0);
        }
    });
    assert!(!parts.is_empty());
    let is_fit = |part: &&Metadata| part.mode() & 0o077 == 0 || part.len() == 2 << 20;
    let wrong = parts.iter().find(|part| !is_fit(part));
    assert!(wrong.is_none(), "{wrong:?} among {} sights", parts.len());
    assert_eq!(
        (rights(&folder, "sub/private"), rights(&folder, "sub/open")),
        (0o600, 0o644)
    );
}

/// What is seen of the files beside those that are written meanwhile.
fn watched(folder: &Path, calls: impl FnOnce() + Send) -> Vec<Metadata> {
    let mut seen = Vec::new();
    std::thread::scope(|scope| {
        let calls = scope.spawn(calls);
        while !calls.is_finished() {
            let entries = fs::read_dir(folder).unwrap().flatten();
            let parts = entries.filter(|entry| entry.file_name().to_string_lossy().ends_with(".part"));
            seen.extend(parts.filter_map(|part| part.metadata().ok()));
        }
    });
    seen
}

#[test]
fn the_rights_of_a_file_stay() {
    let folder = Folder::with_site();
    for (mode, wanted) in [
        (0o600, 0o600),
        (0o640, 0o640),
        (0o644, 0o644),
        (0o400, 0o400),
        (0o4755, 0o755),
    ] {
        for (name, call) in [
            ("site.plan", "plan plan.txt -o site.plan"),
            ("late.path", "reverse good.path --write late.path"),
        ] {
            allow(&folder, name, mode);
            // Where the owner may not write, only root gets so far.
            let is_written = folder.run(call).status == 0;
            assert!(is_written || mode == 0o400, "{call}");
            assert_eq!(rights(&folder, name), wanted, "{call}");
        }
    }
}

/// What is somebody's stays theirs where the writer may give it back. Where not, no group gets what another had.
#[test]
fn a_file_of_another_s_gives_nobody_more() {
    let folder = Folder::with_site();
    let owner = |name: &str| fs::metadata(folder.0.join(name)).map(|about| (about.uid(), about.gid()));
    if owner(".").unwrap().0 != 0 || chown(folder.0.join("late.path"), Some(SOMEBODY), Some(SOMEBODY)).is_err() {
        return;
    }
    allow(&folder, "late.path", 0o640);
    assert_eq!(folder.run("reverse good.path --write late.path").status, 0);
    assert_eq!(owner("late.path").unwrap(), (SOMEBODY, SOMEBODY));
    assert_eq!(rights(&folder, "late.path"), 0o640);
    allow(&folder, ".", 0o777);
    allow(&folder, "good.path", 0o644);
    for (mode, wanted) in [(0o646, 0o644), (0o606, 0o600), (0o666, 0o666)] {
        let _ = fs::remove_file(folder.0.join("out"));
        folder.write("out", "");
        allow(&folder, "out", mode);
        let Some(ran) = by_somebody(&folder, "reverse good.path --write out") else {
            return;
        };
        assert_eq!(ran.status, 0, "{ran:?}");
        assert_eq!((owner("out").unwrap().0, rights(&folder, "out")), (SOMEBODY, wanted));
    }
}

/// The process that left it may have had the same number.
#[test]
fn what_a_killed_call_left_is_in_nobody_s_way() {
    let folder = Folder::with_site();
    let ran = folder.shell("touch .rehearse-$$.part; exec rehearse plan plan.txt -o new.plan");
    assert_eq!(ran.status, 0, "{ran:?}");
    assert_eq!(folder.read("new.plan"), folder.read("site.plan"));
}

/// A file that can't be replaced is not written in place either: half of it could be lost.
#[test]
fn what_may_not_be_replaced_stays() {
    let folder = Folder::with_site();
    fs::create_dir(folder.0.join("closed")).unwrap();
    let before = b"\0\0\0\0 some bytes";
    for name in ["closed/out", "write-only", "read-only"] {
        folder.write(name, before);
    }
    allow(&folder, ".", 0o777);
    allow(&folder, "plan.txt", 0o644);
    allow(&folder, "closed/out", 0o666);
    allow(&folder, "closed", 0o555);
    allow(&folder, "write-only", 0o222);
    allow(&folder, "read-only", 0o444);
    for (name, why) in [
        ("closed/out", "is in a folder where you may make no file"),
        ("closed/new", "is in a folder where you may make no file"),
        ("write-only", "is not yours to read and write"),
        ("read-only", "is not yours to read and write"),
    ] {
        let Some(ran) = by_somebody(&folder, &format!("plan plan.txt -o {name}")) else {
            return;
        };
        assert!(ran.status == 2 && ran.err.contains(why), "{name}: {ran:?}");
    }
    allow(&folder, "write-only", 0o600);
    for name in ["closed/out", "write-only", "read-only"] {
        assert_eq!(folder.read(name), before, "{name}");
    }
    allow(&folder, "closed", 0o755);
    assert_eq!(fs::read_dir(folder.0.join("closed")).unwrap().count(), 1);
}

/// The advice fits what went wrong.
#[test]
fn the_advice_fits() {
    let folder = Folder::with_site();
    symlink("loop", folder.0.join("loop")).unwrap();
    fs::create_dir(folder.0.join("sub")).unwrap();
    for (out, advice) in [
        ("sub", "sub is a folder: name a file in it"),
        (
            "nope/out",
            "is in a folder that is not there: make the folder first, or check the name",
        ),
        ("new/", "check the name, or name another file"),
        ("plan.txt/out", "check the name, or name another file"),
        ("loop", "check the name, or name another file"),
        ("/dev/full", "name another file"),
    ] {
        if out == "/dev/full" && !Path::new(out).exists() {
            continue;
        }
        let ran = folder.run(&format!("plan plan.txt -o {out}"));
        assert!(ran.status == 2 && ran.err.trim_end().ends_with(advice), "{ran:?}");
    }
    let ran = folder.shell("ulimit -f 0; trap '' XFSZ; rehearse plan plan.txt -o out");
    let advice = "free some space, or name a file on another disk";
    assert!(ran.status == 2 && ran.err.trim_end().ends_with(advice), "{ran:?}");
    assert!(!folder.0.join("out").exists());
}
