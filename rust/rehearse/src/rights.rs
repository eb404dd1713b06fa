//! What a Unix knows of a file beside its bytes: who may do what with it, and which one it is. Elsewhere the rights of its
//! folder go for it.
#![cfg_attr(not(unix), allow(unused_variables))]

use std::fs::{File, Metadata, OpenOptions};
use std::io;

#[cfg(unix)]
use std::{
    fs::Permissions,
    os::unix::fs::{fchown, MetadataExt, OpenOptionsExt, PermissionsExt},
};

/// A file that is made with these options is its owner's alone, from its first moment on.
pub fn for_owner_alone(options: &mut OpenOptions) {
    #[cfg(unix)]
    options.mode(0o600);
}

/// Gives a file the rights, and where it can be done the owner, of the one whose place it takes. It goes by the open file:
/// its name may be another's by now.
pub fn take_over(file: &File, old: &Metadata) -> io::Result<()> {
    #[cfg(unix)]
    {
        // Who may not give a file away keeps it, and may still give it to a group of their own. Rights come last: until then
        // the owner alone has any.
        let _ = fchown(file, Some(old.uid()), Some(old.gid())).or_else(|_| fchown(file, None, Some(old.gid())));
        let has_same_group = file.metadata()?.gid() == old.gid();
        file.set_permissions(Permissions::from_mode(kept(old.mode(), has_same_group)))?;
    }
    Ok(())
}

/// The rights that stay. Where the group is another, all but the owner get what both the old group and all others had, so
/// that nobody gets more than before. Setuid and its like go, as they do where a file is written in place.
#[cfg(unix)]
fn kept(mode: u32, has_same_group: bool) -> u32 {
    if has_same_group {
        return mode & 0o777;
    }
    let both = mode >> 3 & mode & 0o7;
    mode & 0o700 | both << 3 | both
}

/// Whether this is one file, as far as the system tells.
pub fn is_same(one: &Metadata, other: &Metadata) -> bool {
    #[cfg(unix)]
    return (one.dev(), one.ino()) == (other.dev(), other.ino());
    #[cfg(not(unix))]
    return true;
}

/// Whether this is one file, and neither its bytes nor its rights have changed.
pub fn is_unchanged(before: &Metadata, now: &Metadata) -> bool {
    #[cfg(unix)]
    let time = |about: &Metadata| (about.ctime(), about.ctime_nsec());
    #[cfg(not(unix))]
    let time = |about: &Metadata| about.modified().ok();
    is_same(before, now) && time(before) == time(now) && before.len() == now.len()
}

#[cfg(all(test, unix))]
mod tests {
    use super::*;

    #[test]
    fn nobody_gets_more_rights_than_before() {
        assert_eq!(kept(0o100_640, true), 0o640);
        assert_eq!(kept(0o106_755, true), 0o755);
        for (mode, wanted) in [
            (0o640, 0o600),
            (0o660, 0o600),
            (0o644, 0o644),
            (0o604, 0o600),
            (0o664, 0o644),
            (0o4755, 0o755),
        ] {
            assert_eq!(kept(mode, false), wanted, "{mode:o}");
        }
    }
}
