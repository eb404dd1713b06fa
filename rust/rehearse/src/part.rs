//! A file beside the place that it is meant for.

use crate::rights;
use std::collections::hash_map::RandomState;
use std::fs::{self, File, OpenOptions};
use std::hash::{BuildHasher, Hasher};
use std::io::{self, ErrorKind, Write};
use std::path::{Path, PathBuf};

/// It is removed unless it gets to its place, or another has got its name.
pub struct Part {
    pub file: File,
    pub name: PathBuf,
    is_placed: bool,
}

/// Names that nobody can foresee. A leftover of another call stands in the way of one at most.
pub fn names() -> impl Iterator<Item = String> {
    let number = || RandomState::new().build_hasher().finish();
    std::iter::repeat_with(move || format!(".rehearse-{:016x}.part", number())).take(16)
}

pub fn folder_of(place: &Path) -> &Path {
    let folder = place.parent().filter(|folder| !folder.as_os_str().is_empty());
    folder.unwrap_or(Path::new("."))
}

impl Part {
    /// Makes an empty one by the first of the names that is free.
    pub fn beside(place: &Path, is_private: bool, mut names: impl Iterator<Item = String>) -> io::Result<Part> {
        let mut options = OpenOptions::new();
        options.write(true).create_new(true);
        if is_private {
            rights::for_owner_alone(&mut options);
        }
        loop {
            let name = names.next().ok_or(ErrorKind::AlreadyExists)?;
            let name = place.with_file_name(name);
            match options.open(&name) {
                Err(error) if error.kind() == ErrorKind::AlreadyExists => {}
                opened => {
                    return opened.map(|file| Part {
                        file,
                        name,
                        is_placed: false,
                    })
                }
            }
        }
    }

    /// Writes all of it, down to the disk.
    pub fn fill<'a>(&mut self, mut pieces: impl Iterator<Item = &'a [u8]>) -> io::Result<()> {
        pieces.try_for_each(|piece| self.file.write_all(piece))?;
        self.file.sync_all()
    }

    pub fn has_its_name(&self) -> bool {
        let (file, named) = (self.file.metadata(), fs::symlink_metadata(&self.name));
        matches!((file, named), (Ok(file), Ok(named)) if rights::is_same(&file, &named))
    }

    /// Moves it to its place, for good where a folder can be synced.
    pub fn put(mut self, place: &Path) -> io::Result<()> {
        fs::rename(&self.name, place)?;
        self.is_placed = true;
        let _ = File::open(folder_of(place)).and_then(|folder| folder.sync_all());
        Ok(())
    }
}

impl Drop for Part {
    fn drop(&mut self) {
        if !self.is_placed && self.has_its_name() {
            let _ = fs::remove_file(&self.name);
        }
    }
}
