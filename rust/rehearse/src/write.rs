//! Writing a file: all of it, or what was there stays.

use crate::by_hand;
use crate::files::{shown, LIMIT};
use crate::mistake::{mistake, Checked};
use crate::part::{folder_of, names, Part};
use crate::rights;
use std::fs::{self, File, Metadata, OpenOptions};
use std::io::{self, ErrorKind, Read, Write};
use std::path::{Path, PathBuf};

/// What is in a file: a new one with keys is its owner's alone.
#[derive(Clone, Copy, PartialEq, Eq)]
pub enum Holds {
    Keys,
    NoKeys,
}

/// Nothing longer is ever written: hex text of what is read takes little more than twice its bytes.
const LONGEST: u64 = 3 * LIMIT;

/// Why a file is not written and what to do, as it stands behind the file's name.
type Why = String;

const CHECK: &str = "check the name, or name another file";
const CHANGED: &str = "is not as it was when the call began: look at it and its folder, and call again";
const CLOSED: &str =
    "is in a folder where you may make no file, and a file is first written beside its place: ask for the right to \
     write there, or name a file in another folder";

/// Writes all of a file, or leaves what is there. What is no plain file, as a pipe, is written as it is.
pub fn whole(name: &Path, content: &[u8], holds: Holds) -> Checked<()> {
    // Calls may write one file at the same time: what has changed meanwhile is looked at again.
    let mut tries = std::iter::repeat_with(|| written(name, content, holds)).take(8);
    let is_settled = |written: &Result<(), Why>| !matches!(written, Err(why) if why == CHANGED);
    let written = tries.find(is_settled).unwrap_or(Err(CHANGED.into()));
    written.or_else(|why| mistake(format!("{} {why}", shown(name.as_os_str()))))
}

fn written(name: &Path, content: &[u8], holds: Holds) -> Result<(), Why> {
    match place_of(name)? {
        Some(place) => replace(&place, content.chunks(65_536), holds),
        None => write_into(name, content),
    }
}

/// Where a plain file stands or is to stand, behind all links; nothing for what is no plain file.
fn place_of(name: &Path) -> Result<Option<PathBuf>, Why> {
    match fs::metadata(name) {
        Ok(about) if about.is_dir() => Err("is a folder: name a file in it".into()),
        Ok(about) if !about.is_file() => Ok(None),
        Ok(_) => fs::canonicalize(name).map(Some).map_err(cannot(CHECK)),
        Err(error) if error.kind() == ErrorKind::NotFound => Ok(Some(end_of_links(name))),
        Err(error) => Err(cannot(CHECK)(error)),
    }
}

/// The name that a link to nothing leads to, over further ones.
fn end_of_links(name: &Path) -> PathBuf {
    let mut place = name.to_path_buf();
    for _ in 0..40 {
        let Ok(target) = fs::read_link(&place) else { break };
        place.pop();
        place.push(target);
    }
    place
}

fn write_into(name: &Path, content: &[u8]) -> Result<(), Why> {
    let mut file = OpenOptions::new().write(true).open(name).map_err(cannot(CHECK))?;
    match file.metadata() {
        Ok(about) if about.is_file() => Err(CHANGED.into()),
        _ => file.write_all(content).map_err(cannot("name another file")),
    }
}

fn replace<'a>(place: &Path, pieces: impl Iterator<Item = &'a [u8]>, holds: Holds) -> Result<(), Why> {
    let old = Old::at(place)?;
    let is_private = old.is_some() || holds == Holds::Keys;
    let mut part = Part::beside(place, is_private, names()).map_err(|error| no_part(place, error))?;
    part.fill(pieces)
        .map_err(cannot("free some space, or name a file on another disk"))?;
    // Others may look at it only now that all is written.
    if let Some(old) = &old {
        rights::take_over(&part.file, &old.about).map_err(cannot("name another file"))?;
    }
    put(part, place, old)
}

/// Puts it in its place, if nothing has come or changed there since.
fn put(part: Part, place: &Path, old: Option<Old>) -> Result<(), Why> {
    let is_as_before = match (fs::symlink_metadata(place), &old) {
        (Ok(now), Some(old)) => rights::is_unchanged(&old.about, &now),
        (now, old) => now.is_err() && old.is_none(),
    };
    if !is_as_before || !part.has_its_name() {
        return Err(CHANGED.into());
    }
    drop(old);
    part.put(place).map_err(cannot(CHECK))
}

fn cannot(advice: &str) -> impl Fn(io::Error) -> Why + '_ {
    move |error| format!("can't be written ({error}): {advice}")
}

fn no_part(place: &Path, error: io::Error) -> Why {
    match error.kind() {
        ErrorKind::NotFound if !folder_of(place).exists() => {
            "is in a folder that is not there: make the folder first, or check the name".into()
        }
        ErrorKind::PermissionDenied => CLOSED.into(),
        _ => cannot("name a file in another folder")(error),
    }
}

/// What stands at a place and may be written over. It stays open: some systems number a file only as long as it is.
struct Old {
    _file: File,
    about: Metadata,
}

impl Old {
    fn at(place: &Path) -> Result<Option<Old>, Why> {
        // Whoever may not write a file may not put another in its place, and one that can't be read may be a text.
        let file = match OpenOptions::new().read(true).write(true).open(place) {
            Ok(file) => file,
            Err(error) if error.kind() == ErrorKind::NotFound => return Ok(None),
            Err(error) if error.kind() == ErrorKind::PermissionDenied => {
                return Err("is not yours to read and write: ask for both rights, or name another file".into());
            }
            Err(error) => return Err(cannot(CHECK)(error)),
        };
        let about = file.metadata().map_err(cannot(CHECK))?;
        match why_kept(&file, &about).map_err(cannot(CHECK))? {
            Some(why) => Err(why.into()),
            None => Ok(Some(Old { _file: file, about })),
        }
    }
}

/// Why a file is not written over.
fn why_kept(file: &File, about: &Metadata) -> io::Result<Option<&'static str>> {
    if !about.is_file() {
        return Ok(Some(CHANGED));
    }
    if about.len() > LONGEST {
        return Ok(Some("is longer than any header or plan: name another file to write"));
    }
    let mut bytes = Vec::new();
    file.take(LONGEST).read_to_end(&mut bytes)?;
    let is_text = by_hand::is_text(&bytes);
    Ok(is_text.then_some("is a text, and writing would lose it: name another file to write"))
}

#[cfg(all(test, unix))]
mod tests {
    use super::*;
    use std::os::unix::fs::{symlink, PermissionsExt};
    use std::{thread, time::Duration};

    const BEFORE: &[u8] = b"\0\0\0\0";

    /// A folder of its own with a file, removed at the end.
    struct Folder(PathBuf);

    impl Folder {
        fn new() -> Folder {
            let folder = Folder(std::env::temp_dir().join(names().next().unwrap()));
            fs::create_dir(&folder.0).unwrap();
            fs::write(folder.place(), BEFORE).unwrap();
            folder
        }

        fn place(&self) -> PathBuf {
            self.0.join("out")
        }

        fn count(&self) -> usize {
            fs::read_dir(&self.0).unwrap().count()
        }
    }

    impl Drop for Folder {
        fn drop(&mut self) {
            let _ = fs::remove_dir_all(&self.0);
        }
    }

    fn mode(name: &Path) -> u32 {
        fs::symlink_metadata(name).unwrap().permissions().mode() & 0o777
    }

    fn allow(name: &Path, mode: u32) {
        fs::set_permissions(name, fs::Permissions::from_mode(mode)).unwrap();
    }

    /// The rights of all files in the folder while one of them is written, and of that one afterwards.
    fn rights_while_written(folder: &Folder, holds: Holds) -> (Vec<u32>, u32) {
        let mut seen = Vec::new();
        let look = |_: &&[u8]| {
            let names = fs::read_dir(&folder.0).unwrap().map(|entry| entry.unwrap().path());
            seen.extend(names.filter(|name| *name != folder.place()).map(|name| mode(&name)));
        };
        let pieces = [&b"so"[..], b"me", b" keys"].into_iter().inspect(look);
        assert_eq!(replace(&folder.place(), pieces, holds), Ok(()));
        assert_eq!(
            (folder.count(), fs::read(folder.place()).unwrap()),
            (1, b"some keys".into())
        );
        (seen, mode(&folder.place()))
    }

    #[test]
    fn what_is_being_written_is_open_to_nobody_else() {
        for holds in [Holds::Keys, Holds::NoKeys] {
            for mode in [0o600, 0o644, 0o666] {
                let folder = Folder::new();
                allow(&folder.place(), mode);
                assert_eq!(rights_while_written(&folder, holds), (vec![0o600; 3], mode));
            }
        }
        let folder = Folder::new();
        let ordinary = mode(&folder.place());
        for (holds, mode) in [(Holds::Keys, 0o600), (Holds::NoKeys, ordinary)] {
            fs::remove_file(folder.place()).unwrap();
            assert_eq!(rights_while_written(&folder, holds), (vec![mode; 3], mode));
        }
    }

    /// Somebody puts a link where a part was: what it leads to stays as it is, and so does what was to be written over.
    #[test]
    fn a_link_in_the_place_of_a_part_leads_nowhere() {
        let folder = Folder::new();
        let (place, other) = (folder.place(), folder.0.join("other"));
        fs::write(&other, "of another").unwrap();
        allow(&other, 0o600);
        allow(&place, 0o666);
        let old = Old::at(&place).unwrap().unwrap();
        let mut part = Part::beside(&place, true, names()).unwrap();
        fs::remove_file(&part.name).unwrap();
        symlink(&other, &part.name).unwrap();
        part.fill([&b"keys"[..]].into_iter()).unwrap();
        rights::take_over(&part.file, &old.about).unwrap();
        assert_eq!(put(part, &place, Some(old)), Err(CHANGED.into()));
        assert_eq!((mode(&other), fs::read(&other).unwrap()), (0o600, b"of another".into()));
        assert_eq!(fs::read(&place).unwrap(), BEFORE);
    }

    /// What has come or changed since a place was looked at is not lost.
    #[test]
    fn a_place_that_changes_is_left_alone() {
        type Change = fn(&Path);
        let changes: [(bool, Change); 6] = [
            (true, |place| fs::write(place, "a text of mine").unwrap()),
            (true, |place| allow(place, 0o400)),
            (true, |place| {
                fs::remove_file(place).unwrap();
                symlink("nothing", place).unwrap();
            }),
            (false, |place| fs::write(place, "a text of mine").unwrap()),
            (false, |place| fs::create_dir(place).unwrap()),
            (false, |place| symlink("nothing", place).unwrap()),
        ];
        for (is_old, change) in changes {
            let folder = Folder::new();
            let place = folder.place();
            if !is_old {
                fs::remove_file(&place).unwrap();
            }
            let old = Old::at(&place).unwrap();
            let part = Part::beside(&place, true, names()).unwrap();
            // Changes within one tick of the system's clock have the same time.
            thread::sleep(Duration::from_millis(20));
            change(&place);
            let changed = fs::symlink_metadata(&place).unwrap();
            assert_eq!(put(part, &place, old), Err(CHANGED.into()));
            assert!(rights::is_unchanged(&changed, &fs::symlink_metadata(&place).unwrap()));
            assert_eq!(folder.count(), 1);
        }
    }

    #[test]
    fn a_name_that_is_taken_is_not_the_last() {
        let folder = Folder::new();
        let names = || ["out", "out", "free"].map(String::from).into_iter();
        let part = Part::beside(&folder.place(), true, names()).unwrap();
        assert_eq!(part.name, folder.0.join("free"));
        let again = Part::beside(&folder.place(), true, names());
        assert!(again.is_err_and(|error| error.kind() == ErrorKind::AlreadyExists));
        drop(part);
        assert_eq!((folder.count(), fs::read(folder.place()).unwrap()), (1, BEFORE.into()));
    }
}
