//! Stands for sciparse/src/proto/dataplane_path/view.rs: a packet's path, by its type.
//!
//! Assumes the cases that `spec.rs` takes apart. Only `route` reads it, and no comparison calls `route`.

use crate::dataplane_path::standard::view::StandardPathView;

/// A one-hop path, which is not looked at here.
pub struct OneHopPathView(());

#[non_exhaustive]
pub enum ScionDpPathViewRefMut<'a> {
    Standard(&'a mut StandardPathView),
    OneHop(&'a mut OneHopPathView),
    Empty,
}
