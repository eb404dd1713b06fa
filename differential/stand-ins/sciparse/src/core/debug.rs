//! Stands for sciparse/src/core/debug.rs: names for ranges of bits, to show binary data.
//!
//! Assumes that nothing but a picture is made from them; no comparison calls this.

use crate::core::layout::BitRange;

#[derive(Debug, Default)]
pub struct Annotations(Vec<(String, Vec<(BitRange, &'static str)>)>);

impl Annotations {
    pub fn new() -> Self {
        Self::default()
    }

    pub fn new_with(name: String, fields: Vec<(BitRange, &'static str)>) -> Self {
        Self(vec![(name, fields)])
    }

    pub fn extend(&mut self, more: Annotations) {
        self.0.extend(more.0);
    }
}
