//! Files that are read and written: on the disk, or in memory for the demonstration.

use crate::hex;
use crate::kinds::{self, Kind};
use crate::mistake::{mistake, Checked};
use crate::output::shortened;
use crate::quoting::{left_out, may_hold_key};
use crate::write::{self, Holds};
use std::cell::{Cell, RefCell};
use std::collections::{BTreeMap, BTreeSet};
use std::ffi::{OsStr, OsString};
use std::fs;
use std::io::{self, ErrorKind, Read};
use std::path::{Path, PathBuf};

/// The most bytes that are read of a file: far more than any header or plan has.
pub const LIMIT: u64 = 64 * 1024 * 1024;

pub enum Files {
    Disk {
        /// Whether standard input has been read, which can be done once.
        input_read: Cell<bool>,
        /// The files that were read, by their full names: none of them is written.
        read: RefCell<BTreeSet<PathBuf>>,
    },
    Memory(RefCell<BTreeMap<OsString, Vec<u8>>>),
}

/// What is made for a file.
pub struct Made<'a> {
    pub bytes: &'a [u8],
    /// Makes hex text of them, where it is asked for: that of a long file takes twice its memory.
    pub as_hex: fn(&[u8]) -> String,
    pub holds: Holds,
}

/// What is read where bytes are asked for: the bytes, or a text that does not stand for any.
pub enum Held {
    Bytes(Vec<u8>),
    Text(String),
}

/// How a file of bytes is to be read.
#[derive(Clone, Copy, PartialEq, Eq)]
pub enum Spelling {
    ByContent,
    Raw,
    Hex,
}

impl Files {
    pub fn on_disk() -> Files {
        Files::Disk {
            input_read: Cell::new(false),
            read: RefCell::default(),
        }
    }

    pub fn in_memory() -> Files {
        Files::Memory(RefCell::default())
    }

    /// A file as it is; `-` is standard input.
    pub fn read(&self, name: &OsStr) -> Checked<Vec<u8>> {
        if name.is_empty() {
            return mistake("a file name is empty: name the file, or - for standard input");
        }
        match self {
            Files::Memory(files) => match files.borrow().get(name) {
                Some(bytes) => Ok(bytes.clone()),
                None => mistake(format!("{} is not there", shown(name))),
            },
            Files::Disk { input_read, read } => {
                let is_input = name == "-";
                if is_input && input_read.replace(true) {
                    return mistake("standard input is named twice: only one of the files can be -");
                }
                // A file behind standard input has a name there too, where the system tells it.
                let place = if is_input { OsStr::new("/dev/stdin") } else { name };
                // Devices are left out: a terminal may be both read and written.
                let place = fs::canonicalize(place).ok().filter(|place| place.is_file());
                read.borrow_mut().extend(place);
                match is_input {
                    true => read_within(io::stdin().lock(), 0, name),
                    false => read_file(name),
                }
            }
        }
    }

    /// A file of text in UTF-8.
    pub fn read_text(&self, name: &OsStr) -> Checked<String> {
        match into_text(self.read(name)?) {
            Ok(text) => Ok(text),
            Err(bytes) => mistake(match other_letters(&bytes) {
                Some(why) => format!("{} {why}", shown(name)),
                None => format!(
                    "{} is no text: give the text form that the command's --help describes; `rehearse plan --show` and \
                     `rehearse sign --show` turn bytes into it",
                    shown(name)
                ),
            }),
        }
    }

    /// A file of bytes, raw or as hex text.
    pub fn read_bytes(&self, name: &OsStr, spelling: Spelling) -> Checked<Held> {
        let bytes = self.read(name)?;
        let from_hex = || hex::from_hex(without_mark(&bytes), &shown(name));
        match spelling {
            Spelling::Raw => Ok(Held::Bytes(bytes)),
            Spelling::Hex => from_hex().map(Held::Bytes),
            Spelling::ByContent if hex::is_hex(without_mark(&bytes)) => from_hex()
                .map(Held::Bytes)
                .or_else(|why| mistake(format!("{} (--raw takes the file as it is)", why.0))),
            Spelling::ByContent => match into_text(bytes) {
                Ok(text) => Ok(Held::Text(text)),
                Err(bytes) => as_bytes(bytes, name).map(Held::Bytes),
            },
        }
    }

    /// A path header.
    pub fn read_path(&self, name: &OsStr, spelling: Spelling) -> Checked<Vec<u8>> {
        let bytes = match self.read_bytes(name, spelling)? {
            Held::Bytes(bytes) => bytes,
            Held::Text(text) => return mistake(no_header(&text, name)),
        };
        // A plan's text has keys in it. It is not shown as a path, whatever the call says of its bytes.
        match plain_text(&bytes).filter(|text| matches!(kinds::of(text), Kind::Plan)) {
            Some(text) => mistake(no_header(text, name)),
            None => Ok(bytes),
        }
    }

    /// Writes a file: as raw bytes, or as the hex text where its name ends so.
    pub fn write(&self, name: &OsStr, made: &Made<'_>) -> Checked<()> {
        if name.is_empty() {
            return mistake("the name of the file to write is empty: name a file");
        }
        let is_hex = name.to_string_lossy().ends_with(".hex");
        let hex = is_hex.then(|| (made.as_hex)(made.bytes));
        let content = hex.as_ref().map_or(made.bytes, |hex| hex.as_bytes());
        match self {
            Files::Memory(files) => {
                files.borrow_mut().insert(name.to_owned(), content.to_vec());
                Ok(())
            }
            Files::Disk { read, .. } if fs::canonicalize(name).is_ok_and(|name| read.borrow().contains(&name)) => {
                mistake(format!(
                    "{} is a file that this call reads, and writing would lose it: name another file to write",
                    shown(name)
                ))
            }
            Files::Disk { .. } => write::whole(Path::new(name), content, made.holds),
        }
    }
}

/// What to say of a text that is given as a path.
fn no_header(text: &str, name: &OsStr) -> String {
    let (of, word) = (shown(name), name.to_string_lossy());
    match kinds::of(text) {
        Kind::Plan => format!("{of} is the text form of a plan and no path: give the path here"),
        Kind::Path => format!(
            "{of} is the text form of a path and no header: make the header with \
             `rehearse sign {word} --plan PLAN -o PATH`"
        ),
        Kind::AlmostHex(why) => almost_hex(&of, &why),
        Kind::Other => format!(
            "{of} is text and no path header: `rehearse sign` makes a header of a path's text form, --hex says that it \
             is hex text, --raw that the header has these bytes"
        ),
    }
}

pub fn almost_hex(of: &str, why: &str) -> String {
    format!("{of}: {why} (--raw takes the file as it is)")
}

/// Whether this is text as people write it.
fn is_plain(text: &str) -> bool {
    text.chars()
        .all(|letter| !letter.is_control() || matches!(letter, '\t' | '\n' | '\r'))
}

/// Bytes without the mark that some editors put before a text.
pub fn without_mark(bytes: &[u8]) -> &[u8] {
    bytes.strip_prefix("\u{feff}".as_bytes()).unwrap_or(bytes)
}

/// Text in UTF-8, without its mark, or nothing if it is none.
pub fn plain_text(bytes: &[u8]) -> Option<&str> {
    std::str::from_utf8(without_mark(bytes))
        .ok()
        .filter(|text| is_plain(text))
}

/// The same as a text of its own, or the bytes back. Nothing is copied: files are long.
fn into_text(mut bytes: Vec<u8>) -> Result<String, Vec<u8>> {
    if plain_text(&bytes).is_none() {
        return Err(bytes);
    }
    bytes.drain(..bytes.len() - without_mark(&bytes).len());
    String::from_utf8(bytes).map_err(|error| error.into_bytes())
}

/// What to say of text that is not in UTF-8. Neither a sound plan nor a header with reserved bits of zero is taken for it:
/// both have a byte among their first two that no text has.
fn other_letters(bytes: &[u8]) -> Option<String> {
    if bytes.starts_with(&[0xff, 0xfe]) || bytes.starts_with(&[0xfe, 0xff]) {
        return Some("is text in UTF-16: save it as UTF-8".into());
    }
    let at = std::str::from_utf8(bytes).err()?.valid_up_to();
    let is_ascii = |byte: &&u8| matches!(byte, b'\t' | b'\n' | b'\r' | b' '..=b'~');
    let ascii = bytes.iter().filter(is_ascii).count();
    let others = bytes.iter().filter(|&&byte| byte >= 0x80).count();
    if ascii + others < bytes.len() || ascii < 3 * others {
        return None;
    }
    let line = bytes[..at].split(|&byte| byte == b'\n').count();
    Some(format!(
        "is text, but not in UTF-8: line {line} has the byte {:02x}: save it as UTF-8",
        bytes[at]
    ))
}

/// Bytes that are no text are taken as they are, but for text in other letters.
fn as_bytes(bytes: Vec<u8>, name: &OsStr) -> Checked<Vec<u8>> {
    match other_letters(&bytes) {
        Some(why) => mistake(format!("{} {why}", shown(name))),
        None => Ok(bytes),
    }
}

/// A file's name as it is shown. One that may hold a key is shown only if there is such a file: it is no secret then.
pub fn shown(name: &OsStr) -> String {
    if name == "-" {
        return "standard input".into();
    }
    let text = name.to_string_lossy();
    match may_hold_key(&text) && !Path::new(name).exists() {
        true => left_out("name", &text),
        false => shortened(&text),
    }
}

fn read_file(name: &OsStr) -> Checked<Vec<u8>> {
    let about = match fs::metadata(name) {
        Ok(about) => about,
        Err(error) => return cannot_read(name, &error),
    };
    if about.is_dir() {
        return mistake(format!("{} is a folder: name a file in it", shown(name)));
    }
    if about.len() > LIMIT {
        return too_long(name);
    }
    match fs::File::open(name) {
        Ok(file) => read_within(file, about.len(), name),
        Err(error) => cannot_read(name, &error),
    }
}

/// Reads to the end, which is expected behind so many bytes.
fn read_within(from: impl Read, expected: u64, name: &OsStr) -> Checked<Vec<u8>> {
    let mut bytes = Vec::with_capacity(expected as usize);
    match from.take(LIMIT + 1).read_to_end(&mut bytes) {
        Err(error) => cannot_read(name, &error),
        Ok(_) if bytes.len() as u64 > LIMIT => too_long(name),
        Ok(_) => Ok(bytes),
    }
}

fn cannot_read<T>(name: &OsStr, error: &io::Error) -> Checked<T> {
    let name = shown(name);
    mistake(match error.kind() {
        ErrorKind::NotFound => format!("{name} is not there: check the name and the folder that you are in"),
        ErrorKind::PermissionDenied => format!("{name} may not be read: ask for the right to read it"),
        _ => format!("{name} can't be read ({error}): check the name, or name another file"),
    })
}

fn too_long<T>(name: &OsStr) -> Checked<T> {
    mistake(format!(
        "{} has more than 64 MiB, and a header has 2,296 bytes at most, a plan 65,536: check that it is the right file",
        shown(name)
    ))
}
