//! What the tests share: the built program, folders, stored outputs, and a reader of JSON.
#![allow(dead_code)]

pub mod json;

use std::fs;
use std::hash::{BuildHasher, Hasher, RandomState};
use std::io::{ErrorKind, Read, Write};
use std::path::{Path, PathBuf};
use std::process::{Command, Output, Stdio};
use std::sync::mpsc;
use std::thread;
use std::time::Duration;

pub const PROGRAM: &str = env!("CARGO_BIN_EXE_rehearse");

/// What a call may take: the longest takes some seconds.
pub const LIMIT: Duration = Duration::from_secs(120);

/// The station of hall A in the example site, as options of a step.
pub const HALL_A: &str = "--table 1:parent:up --key 30a1f2c4b5d697e8091a2b3c4d5e6f70";
pub const READINGS: &str = "--earliest 2026-11-16T06:05:00Z --latest 2026-11-16T11:00:00Z";

/// A folder of its own, removed at the end.
pub struct Folder(pub PathBuf);

impl Folder {
    pub fn new() -> Folder {
        let random = || RandomState::new().build_hasher().finish();
        Folder(new_folder(&std::env::temp_dir(), random))
    }

    /// A folder with the example site, its plan as bytes and its paths signed.
    pub fn with_site() -> Folder {
        let folder = Folder::new();
        assert_eq!(folder.run("demo --write .").status, 0);
        folder
    }

    pub fn text(&self, name: &str) -> String {
        String::from_utf8(self.read(name)).unwrap()
    }

    pub fn write(&self, name: &str, content: impl AsRef<[u8]>) {
        fs::write(self.0.join(name), content).unwrap();
    }

    pub fn read(&self, name: &str) -> Vec<u8> {
        fs::read(self.0.join(name)).unwrap()
    }

    /// Runs `rehearse` with words between spaces.
    pub fn run(&self, call: &str) -> Ran {
        self.call(
            &call.split(' ').filter(|word| !word.is_empty()).collect::<Vec<_>>(),
            b"",
        )
    }

    pub fn call(&self, words: &[&str], input: &[u8]) -> Ran {
        let mut command = Command::new(PROGRAM);
        command.args(words).current_dir(&self.0);
        within(LIMIT, &mut command, input).unwrap_or_else(|late| panic!("{late}"))
    }

    /// Runs a script of `sh` in which `rehearse` is the built program.
    pub fn shell(&self, script: &str) -> Ran {
        shell(Path::new(PROGRAM), &self.0, script)
    }

    /// The call and what it gave, as it would stand on a screen.
    pub fn transcript(&self, call: &str) -> String {
        let ran = self.run(call);
        format!("$ rehearse {call}\n{}{}[status {}]\n\n", ran.out, ran.err, ran.status)
    }
}

impl Drop for Folder {
    fn drop(&mut self) {
        let _ = fs::remove_dir_all(&self.0);
    }
}

/// Makes a folder that was not there, for nobody else, with a name that a script has to quote.
pub fn new_folder(parent: &Path, mut number: impl FnMut() -> u64) -> PathBuf {
    let mut builder = fs::DirBuilder::new();
    #[cfg(unix)]
    std::os::unix::fs::DirBuilderExt::mode(&mut builder, 0o700);
    loop {
        let folder = parent.join(format!("rehearse it's a $test; {:016x}", number()));
        match builder.create(&folder) {
            Ok(()) => return folder,
            Err(error) if error.kind() == ErrorKind::AlreadyExists => {}
            Err(error) => panic!("{}: {error}", folder.display()),
        }
    }
}

#[derive(Debug)]
pub struct Ran {
    pub out: String,
    pub err: String,
    pub status: i32,
}

impl Ran {
    fn new(output: Output) -> Ran {
        Ran {
            out: String::from_utf8(output.stdout).unwrap(),
            err: String::from_utf8(output.stderr).unwrap(),
            status: output.status.code().expect("an exit status"),
        }
    }
}

/// Runs a script of `sh` in which `rehearse` is this program. The script does not hold the program's name, which may have any
/// letters; a colon alone can't be on the PATH, and cargo builds nothing below a folder with one.
pub fn shell(program: &Path, folder: &Path, script: &str) -> Ran {
    let path = std::env::var_os("PATH").unwrap_or_default();
    let places = std::iter::once(program.parent().unwrap().into()).chain(std::env::split_paths(&path));
    let mut command = Command::new("sh");
    command
        .args(["-c", script])
        .env("PATH", std::env::join_paths(places).unwrap())
        .current_dir(folder);
    within(LIMIT, &mut command, b"").unwrap_or_else(|late| panic!("{late}"))
}

/// Runs a command to its end. One that takes too long is killed with all that it started, and named in the error.
pub fn within(limit: Duration, command: &mut Command, input: &[u8]) -> Result<Ran, String> {
    #[cfg(unix)]
    std::os::unix::process::CommandExt::process_group(command, 0);
    let mut child = command
        .stdin(Stdio::piped())
        .stdout(Stdio::piped())
        .stderr(Stdio::piped())
        .spawn()
        .unwrap();
    let (mut stdin, input) = (child.stdin.take().unwrap(), input.to_vec());
    // A program that does not read its input is no fault of the test. Nobody waits for this thread.
    thread::spawn(move || drop(stdin.write_all(&input)));
    let group = child.id();
    let (tell, told) = mpsc::channel();
    thread::spawn(move || drop(tell.send(child.wait_with_output())));
    if let Ok(output) = told.recv_timeout(limit) {
        return Ok(Ran::new(output.unwrap()));
    }
    // The number is still the group's: a child is not waited for before all of its output is read.
    let kill = ["-c", "kill -s KILL -- \"-$1\"", "sh", &group.to_string()];
    let _ = Command::new("sh").args(kill).status();
    let left = match told.recv_timeout(Duration::from_secs(10)) {
        Ok(output) => format!("and wrote {:?}", String::from_utf8_lossy(&output.unwrap().stdout)),
        Err(_) => "and something that it started goes on".into(),
    };
    Err(format!("{command:?} did not end within {limit:?}, {left}"))
}

/// A named pipe that is open at both ends, so that nobody waits for somebody at the other end.
#[cfg(unix)]
pub struct Pipe(fs::File);

#[cfg(unix)]
impl Pipe {
    pub fn new(folder: &Folder, name: &str) -> Pipe {
        assert_eq!(folder.shell(&format!("mkfifo {name}")).status, 0);
        let file = fs::File::options().read(true).write(true).open(folder.0.join(name));
        Pipe(file.unwrap())
    }

    /// What was written to it, which is less than it can hold.
    pub fn written(mut self) -> Vec<u8> {
        // One byte more, so that there is something to read.
        self.0.write_all(b".").unwrap();
        let mut bytes = vec![0; 1 << 16];
        let size = self.0.read(&mut bytes).unwrap();
        bytes.truncate(size - 1);
        bytes
    }
}

/// Compares with a file of `expected`. With REHEARSE_EXPECTED=write the file is written instead.
pub fn expect(name: &str, text: &str) {
    let file = Path::new(env!("CARGO_MANIFEST_DIR")).join("tests/expected").join(name);
    if std::env::var("REHEARSE_EXPECTED").is_ok_and(|value| value == "write") {
        fs::write(&file, text).unwrap();
    }
    let stored = fs::read_to_string(&file).unwrap_or_default();
    for (line, (stored, given)) in stored.lines().zip(text.lines()).enumerate() {
        assert_eq!(stored, given, "line {} of {}", line + 1, file.display());
    }
    assert_eq!(stored, text, "{}", file.display());
}

pub fn from_hex(text: &str) -> Vec<u8> {
    (0..text.len())
        .step_by(2)
        .map(|at| u8::from_str_radix(&text[at..at + 2], 16).unwrap())
        .collect()
}

pub fn to_hex(bytes: &[u8]) -> String {
    bytes.iter().map(|byte| format!("{byte:02x}")).collect()
}

/// Numbers that look random, the same in every run.
pub struct Random(pub u64);

impl Random {
    pub fn below(&mut self, limit: u64) -> u64 {
        self.0 = self
            .0
            .wrapping_mul(6_364_136_223_846_793_005)
            .wrapping_add(1_442_695_040_888_963_407);
        (self.0 >> 33) % limit
    }

    pub fn flip(&mut self) -> bool {
        self.below(2) == 1
    }

    pub fn bytes(&mut self, count: usize) -> Vec<u8> {
        (0..count).map(|_| self.below(256) as u8).collect()
    }
}
