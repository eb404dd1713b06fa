//! Links the archive of the proved functions as the library `scion_step`. It is `target/staticlib/libexports.a` at the
//! root of the repository, which `sh/archive` makes by `rt` where it is not there, or the file that
//! `STANDARD_PATH_ARCHIVE` names.
//!
//! An archive of the crate's version is taken as it is: after a change to a Rattle source, run `sh/archive`. One that is
//! gone is made anew, because a copy that an earlier build took may be older than the sources. Only where there is no
//! `rt` is that copy linked, with a warning.

use std::path::{Path, PathBuf};
use std::process::{exit, Command};
use std::{env, fs, io};

/// From this crate's folder, in which cargo runs this program.
const ARCHIVE: &str = "../../target/staticlib/libexports.a";
const MAKER: &str = "../../sh/archive";

/// The maker's status where there is no `rt`.
const NO_RT: i32 = 127;

/// A function of this name and the version is in the archive. The linker has the last word on it, see src/lib.rs.
const NAME: &str = "scion_step_version_";
const VERSION: &str = "2";

fn main() {
    println!("cargo:rerun-if-changed=build.rs");
    println!("cargo:rerun-if-env-changed=STANDARD_PATH_ARCHIVE");
    let folder = out_dir();
    // A name of its own, so that no other library stands in.
    let copy = Path::new(&folder).join("libscion_step.a");
    let archive = match env::var_os("STANDARD_PATH_ARCHIVE") {
        Some(name) => given(name.into()),
        None => made(&copy),
    };
    let bytes = fs::read(&archive).unwrap_or_else(|error| fail(&format!("{archive:?} can't be read: {error}")));
    check_version(&archive, &bytes);
    replace(&copy, &bytes).unwrap_or_else(|error| fail(&format!("{copy:?} can't be written: {error}")));
    println!("cargo:rustc-link-search=native={folder}");
    println!("cargo:rustc-link-lib=static=scion_step");
}

// ---- names

/// Cargo reads what is printed here as lines of UTF-8.
fn line(name: &Path) -> Option<&str> {
    name.to_str().filter(|name| !name.contains(['\n', '\r']))
}

fn out_dir() -> String {
    let Some(folder) = env::var_os("OUT_DIR").map(PathBuf::from) else {
        fail("OUT_DIR is not set: run this by cargo");
    };
    match line(&folder) {
        Some(name) => name.into(),
        None => fail(&format!(
            "the build folder {folder:?} is not a name in one line of UTF-8, and cargo reads no other from this program: \
             name one in CARGO_TARGET_DIR"
        )),
    }
}

// ---- the archive

fn given(archive: PathBuf) -> PathBuf {
    if archive.is_relative() {
        fail(&format!(
            "STANDARD_PATH_ARCHIVE names {archive:?}, and cargo does not say in which folder it was called: write the \
             whole name, from the root on"
        ));
    }
    if !archive.is_file() {
        fail(&format!(
            "STANDARD_PATH_ARCHIVE names {archive:?}, and there is no such file"
        ));
    }
    // What cargo can't read is looked at in every build, as a file that is never there.
    println!("cargo:rerun-if-changed={}", line(&archive).unwrap_or("no-such-file"));
    archive
}

fn made(copy: &Path) -> PathBuf {
    println!("cargo:rerun-if-changed={ARCHIVE}");
    let archive = PathBuf::from(ARCHIVE);
    if archive.is_file() {
        return archive;
    }
    // Cargo reads this program's output, so that of the maker is kept from it.
    match Command::new(MAKER).output() {
        Ok(output) if output.status.success() => archive,
        Ok(output) if output.status.code() == Some(NO_RT) => left(copy, "rt, which makes it, is not on the PATH"),
        Ok(output) => fail(&format!(
            "`sh/archive` failed:\n{}{}",
            String::from_utf8_lossy(&output.stdout),
            String::from_utf8_lossy(&output.stderr)
        )),
        Err(error) => left(copy, &format!("sh/archive, which makes it, does not start ({error})")),
    }
}

/// The copy of an earlier build, where nothing else is to be had.
fn left(copy: &Path, why: &str) -> PathBuf {
    let gone = format!("target/staticlib/libexports.a is not there, and {why}");
    if !copy.is_file() {
        fail(&format!(
            "{gone}: put the Rattle toolchain on the PATH, or name an archive in STANDARD_PATH_ARCHIVE"
        ));
    }
    println!("cargo:warning={gone}: the copy of an earlier build is linked");
    copy.into()
}

fn check_version(archive: &Path, bytes: &[u8]) {
    let versions = versions(bytes);
    if versions.iter().any(|version| version == VERSION) {
        return;
    }
    let has = match versions.first() {
        Some(version) => format!("is of version {version}"),
        None => "has no version".into(),
    };
    let archive = archive.canonicalize().unwrap_or_else(|_| archive.into());
    fail(&format!(
        "{archive:?} {has}, and this crate takes version {VERSION}: run `sh/archive` in the repository that the crate is \
         from"
    ));
}

/// The versions that names in the archive have. This only helps to say what is wrong: a name may be no function's.
fn versions(bytes: &[u8]) -> Vec<String> {
    let names = bytes.windows(NAME.len()).enumerate();
    let ends = names.filter_map(|(at, name)| (name == NAME.as_bytes()).then_some(at + name.len()));
    ends.map(|end| bytes[end..].iter().take_while(|byte| byte.is_ascii_digit()))
        .map(|digits| digits.copied().map(char::from).collect())
        .collect()
}

/// Written beside it and renamed, since what is there may be read-only. The archive's permissions are not taken over.
fn replace(copy: &Path, bytes: &[u8]) -> io::Result<()> {
    let new = copy.with_extension("new");
    fs::write(&new, bytes)?;
    fs::rename(new, copy)
}

fn fail(why: &str) -> ! {
    eprintln!("scion-step-sys: {why}");
    exit(1)
}
