//! The published files of `sciparse`, unchanged, among stand-ins for the others: `build.rs` copies both into one tree.

include!(concat!(env!("OUT_DIR"), "/src/lib.rs"));
