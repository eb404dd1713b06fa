//! Stands for the crate `chrono`: whole seconds since 1970, in UTC.
//!
//! Assumes that only `ScionNetworkTime::now` and `date_time` need it; no comparison calls either.

use std::{marker::PhantomData, time::SystemTime};

#[derive(Debug, Clone, Copy, PartialEq, Eq)]
pub struct Utc;

impl Utc {
    pub fn now() -> DateTime<Utc> {
        let since = SystemTime::now().duration_since(SystemTime::UNIX_EPOCH);
        DateTime(since.map_or(0, |since| since.as_secs() as i64), PhantomData)
    }
}

#[derive(Debug, Clone, Copy, PartialEq, Eq)]
pub struct DateTime<Zone>(i64, PhantomData<Zone>);

impl DateTime<Utc> {
    pub fn from_timestamp(seconds: i64, _nanoseconds: u32) -> Option<Self> {
        Some(DateTime(seconds, PhantomData))
    }

    pub fn timestamp(&self) -> i64 {
        self.0
    }
}
