//! One call with all its inputs.

use crate::{Answer, sizes};

#[derive(Debug, Clone, Copy, PartialEq, Eq)]
pub enum Call {
    Step,
    Ingress,
    Egress,
    Reverse,
    Expiration,
}

impl Call {
    pub const ALL: [Call; 5] = [
        Call::Step,
        Call::Ingress,
        Call::Egress,
        Call::Reverse,
        Call::Expiration,
    ];

    /// The name that the lines of run_cases have.
    pub fn name(self) -> &'static str {
        match self {
            Call::Step => "step",
            Call::Ingress => "ingress",
            Call::Egress => "egress",
            Call::Reverse => "reverse",
            Call::Expiration => "expiration",
        }
    }
}

/// `try_reverse` and `expiration` look at the path only.
#[derive(Debug, Clone, PartialEq, Eq)]
pub struct Case {
    pub call: Call,
    pub path: Vec<u8>,
    pub ids: Vec<u16>,
    pub states: Vec<u8>,
    pub interface: u16,
    pub now: u32,
    pub key: [u8; 16],
    pub ignore_macs: bool,
}

impl Case {
    /// Makes the call on the published Rust, which leaves its bytes in `path`.
    pub fn run(&self, path: &mut [u8]) -> Answer {
        let Case {
            call,
            ids,
            states,
            interface,
            now,
            key,
            ignore_macs,
            ..
        } = self;
        let half = match call {
            Call::Step => crate::handle_standard_path,
            Call::Ingress => crate::standard_path_ingress,
            Call::Egress => crate::standard_path_egress,
            Call::Reverse => return crate::try_reverse(path),
            Call::Expiration => return crate::expiration(path),
        };
        half(path, ids, states, *interface, *now, key, *ignore_macs)
    }

    /// The scope's question that the Rust does not have, if the case fails it: 1 or 4.
    pub fn beyond_the_rust(&self) -> Option<u16> {
        let has_table = !matches!(self.call, Call::Reverse | Call::Expiration);
        if has_table && !is_sound(&self.ids, &self.states) {
            return Some(1);
        }
        let sizes = sizes(lengths(&self.path)?);
        (self.path.len() >= sizes.bytes && sizes.hop_fields > 64).then_some(4)
    }
}

/// Question 1.
pub fn is_sound(ids: &[u16], states: &[u8]) -> bool {
    ids.len() == states.len()
        && ids.len() <= 256
        && ids.is_sorted_by(|low, high| low < high)
        && states.iter().all(|state| *state < 8)
}

/// The meta word of an index pair and three lengths, reserved bits 0.
pub fn meta(curr_inf: u8, curr_hf: u8, lengths: [u8; 3]) -> [u8; 4] {
    debug_assert!(curr_inf < 4 && curr_hf < 64 && lengths.iter().all(|length| *length < 64));
    let [first, second, third] = lengths.map(u32::from);
    let places = (curr_inf as u32) << 30 | (curr_hf as u32) << 24;
    (places | first << 12 | second << 6 | third).to_be_bytes()
}

/// The three lengths of a path that has a meta word.
pub fn lengths(path: &[u8]) -> Option<[u8; 3]> {
    let word = u32::from_be_bytes(*path.first_chunk()?);
    Some([12, 6, 0].map(|shift| (word >> shift & 63) as u8))
}
