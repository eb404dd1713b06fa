//! The Rattle archive as the differential run calls it, and journeys on both sides.

pub mod archive;
pub mod plans;

/// Whether an info field that is there has P, which the editions differ in.
pub fn has_p(path: &[u8]) -> bool {
    let Some(lengths) = oracle::case::lengths(path) else {
        return false;
    };
    let infos = lengths.iter().filter(|length| **length != 0).count();
    let mut flags = path[4..].iter().step_by(8).take(infos);
    flags.any(|flags| flags & 2 != 0)
}
