//! The interfaces of an AS.
//!
//! `AsRoutingLinkType` and `AsRoutingInterfaceState` are from crates/pocketscion/src/network/scion/routing.rs of
//! Anapaya/scion-sdk at commit 866faf5ba3, and changed: open fields, a byte for a state.
//! Copyright 2025 Anapaya Systems
//! Licensed under the Apache License, Version 2.0: see NOTICE.

use std::error::Error;
use std::fmt;

/// What kind of AS lies at the other end of a link.
#[derive(Debug, Clone, Copy, PartialEq, Eq, Hash)]
pub enum AsRoutingLinkType {
    /// A core AS.
    LinkToCore,
    /// A parent AS.
    LinkToParent,
    /// A child AS.
    LinkToChild,
    /// A peer AS.
    LinkToPeer,
}

/// The state of an interface.
#[derive(Debug, Clone, Copy, PartialEq, Eq, Hash)]
pub struct AsRoutingInterfaceState {
    /// The link behind it.
    pub link_type: AsRoutingLinkType,
    /// Whether it can be left by.
    pub is_up: bool,
}

impl AsRoutingInterfaceState {
    /// The state as the byte that a table holds: the link (0 core, 1 parent, 2 child, 3 peer), plus 4 if it is up.
    pub fn byte(self) -> u8 {
        let link = match self.link_type {
            AsRoutingLinkType::LinkToCore => 0,
            AsRoutingLinkType::LinkToParent => 1,
            AsRoutingLinkType::LinkToChild => 2,
            AsRoutingLinkType::LinkToPeer => 3,
        };
        link + if self.is_up { 4 } else { 0 }
    }
}

/// The interfaces of an AS as two slices, unchecked: the library answers
/// [`UnsoundTable`](crate::StandardRoutingError::UnsoundTable) to those that are no table.
#[derive(Debug, Clone, Copy, PartialEq, Eq)]
pub struct Interfaces<'a> {
    /// The interface numbers, strictly ascending, at most 256 of them.
    pub ids: &'a [u16],
    /// A byte for each number, see [`AsRoutingInterfaceState::byte`].
    pub states: &'a [u8],
}

impl<'a> From<&'a InterfaceTable> for Interfaces<'a> {
    fn from(table: &'a InterfaceTable) -> Self {
        Interfaces {
            ids: &table.ids,
            states: &table.states,
        }
    }
}

/// The interfaces of an AS, known to be a sound table: no call answers
/// [`UnsoundTable`](crate::StandardRoutingError::UnsoundTable) to it.
#[derive(Debug, Clone, PartialEq, Eq, Default)]
pub struct InterfaceTable {
    ids: Vec<u16>,
    states: Vec<u8>,
}

impl InterfaceTable {
    /// The most entries that a table can have.
    pub const MAX_ENTRIES: usize = 256;

    /// A table of interface numbers and a state byte for each, as [`Interfaces`] describes them.
    pub fn new(ids: impl Into<Vec<u16>>, states: impl Into<Vec<u8>>) -> Result<InterfaceTable, UnsoundTable> {
        let (ids, states) = (ids.into(), states.into());
        match fault(&ids, &states) {
            Some(fault) => Err(fault),
            None => Ok(InterfaceTable { ids, states }),
        }
    }

    /// A table of interfaces in any order, each number once.
    ///
    /// ```
    /// use standard_path::AsRoutingLinkType::{LinkToChild, LinkToParent};
    /// use standard_path::{AsRoutingInterfaceState, InterfaceTable};
    ///
    /// let up = |link_type| AsRoutingInterfaceState { link_type, is_up: true };
    /// let table = InterfaceTable::from_entries([(3, up(LinkToParent)), (1, up(LinkToChild))]);
    /// assert_eq!(table, InterfaceTable::new([1, 3], [6, 5]));
    /// ```
    pub fn from_entries(
        entries: impl IntoIterator<Item = (u16, AsRoutingInterfaceState)>,
    ) -> Result<InterfaceTable, UnsoundTable> {
        let mut entries: Vec<_> = entries.into_iter().collect();
        entries.sort_by_key(|&(id, _)| id);
        let (ids, states): (Vec<u16>, Vec<u8>) = entries.iter().map(|&(id, state)| (id, state.byte())).unzip();
        InterfaceTable::new(ids, states)
    }

    /// The interface numbers, ascending.
    pub fn ids(&self) -> &[u16] {
        &self.ids
    }

    /// The state bytes, in the order of the numbers.
    pub fn states(&self) -> &[u8] {
        &self.states
    }
}

/// Why two lists are no interface table: the library's answer 1, with its cause.
#[derive(Debug, Clone, Copy, PartialEq, Eq, Hash)]
pub enum UnsoundTable {
    /// There is not one state for each number.
    LengthsDiffer {
        /// How many numbers there are.
        ids: usize,
        /// How many states there are.
        states: usize,
    },
    /// There are more than 256 entries.
    TooManyEntries {
        /// How many there are.
        entries: usize,
    },
    /// A number is not above the one before it.
    NotAscending {
        /// The number's place in the list, from 0.
        entry: usize,
    },
    /// A state byte is 8 or above.
    UnknownState {
        /// The state's place in the list, from 0.
        entry: usize,
        /// The byte.
        state: u8,
    },
}

impl UnsoundTable {
    /// The scope document's number, 1.
    pub fn number(&self) -> u16 {
        1
    }
}

impl fmt::Display for UnsoundTable {
    fn fmt(&self, f: &mut fmt::Formatter<'_>) -> fmt::Result {
        match self {
            UnsoundTable::LengthsDiffer { ids, states } => {
                write!(f, "the interface table has {ids} numbers, but {states} states")
            }
            UnsoundTable::TooManyEntries { entries } => {
                write!(f, "the interface table has {entries} entries, and 256 is the most")
            }
            UnsoundTable::NotAscending { entry } => write!(
                f,
                "entry {entry} of the interface table has a number that is not above the one before it"
            ),
            UnsoundTable::UnknownState { entry, state } => write!(
                f,
                "entry {entry} of the interface table has the state {state}, and 7 is the highest"
            ),
        }
    }
}

impl Error for UnsoundTable {}

fn fault(ids: &[u16], states: &[u8]) -> Option<UnsoundTable> {
    if ids.len() != states.len() {
        return Some(UnsoundTable::LengthsDiffer {
            ids: ids.len(),
            states: states.len(),
        });
    }
    if ids.len() > InterfaceTable::MAX_ENTRIES {
        return Some(UnsoundTable::TooManyEntries { entries: ids.len() });
    }
    if let Some(before) = ids.windows(2).position(|pair| pair[0] >= pair[1]) {
        return Some(UnsoundTable::NotAscending { entry: before + 1 });
    }
    states
        .iter()
        .position(|&state| state >= 8)
        .map(|entry| UnsoundTable::UnknownState {
            entry,
            state: states[entry],
        })
}
