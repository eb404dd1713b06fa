//! A plan's stations as the bytes of an itinerary, and what can be read of such bytes.

use crate::interfaces::Interface;
use crate::mistake::{mistake, Checked};
use crate::plan::Station;
use crate::report::sentences;
use standard_path::{Edition, JourneyError, ScionNetworkTime};
use std::collections::HashSet;

pub const RECORD: usize = 32;
pub const MOST_RECORDS: usize = 2_048;

pub const TOO_MANY: &str =
    "the plan takes more than 2,048 records (1, and one for each station and each interface): leave \
                            out interfaces that no path uses";

/// The most interfaces that are read of one plan: more than all stations of a path can have.
const MOST_INTERFACES: usize = 64 * 256;

/// The bytes: record 0, a record for each station, a record for each interface, all in order.
pub fn to_bytes(stations: &[Station]) -> Checked<Vec<u8>> {
    let interfaces: usize = stations.iter().map(|station| station.interfaces.len()).sum();
    let records = 1 + stations.len() + interfaces;
    if records > MOST_RECORDS {
        return mistake(TOO_MANY);
    }
    let index = |index: usize| (index as u16).to_be_bytes();
    let next = |at: usize, index_of_next: usize, count: usize| index(if at + 1 < count { index_of_next } else { 0 });
    let mut bytes = vec![0; RECORD * records];
    bytes[..2].copy_from_slice(&index(stations.len().min(1)));
    let mut free = 1 + stations.len();
    for (at, station) in stations.iter().enumerate() {
        let record = &mut bytes[RECORD * (at + 1)..][..RECORD];
        let count = station.interfaces.len();
        record[..2].copy_from_slice(&next(at, at + 2, stations.len()));
        record[2..4].copy_from_slice(&station.arrival.to_be_bytes());
        record[4..6].copy_from_slice(&index(if count == 0 { 0 } else { free }));
        record[8..24].copy_from_slice(&station.key);
        for (place, &(number, state)) in station.interfaces.iter().enumerate() {
            let record = &mut bytes[RECORD * free..][..RECORD];
            record[..2].copy_from_slice(&next(place, free + 1, count));
            record[2..4].copy_from_slice(&number.to_be_bytes());
            record[4] = state;
            free += 1;
        }
    }
    Ok(bytes)
}

/// What can be read of an itinerary, and where the reading stopped short.
pub struct Read {
    pub stations: Vec<Station>,
    pub remarks: Vec<String>,
}

/// Reads as far as the records go: every chain ends, since it only goes up.
pub fn read(bytes: &[u8]) -> Read {
    let mut remarks = odd_size(bytes);
    let mut left = MOST_INTERFACES;
    let chain_of_stations = chain(bytes, number(bytes, 0), "station", MOST_RECORDS, &mut remarks);
    let mut stations = Vec::new();
    for &record in &chain_of_stations {
        remarks.extend(not_zero(bytes, record, "a station", (6..8).chain(24..RECORD)));
        let first = number(bytes, RECORD * record + 4);
        let interfaces = chain(bytes, first, "interface", left, &mut remarks);
        left -= interfaces.len();
        for &record in &interfaces {
            remarks.extend(not_zero(bytes, record, "an interface", 5..RECORD));
            if chain_of_stations.binary_search(&record).is_ok() {
                remarks.push(format!("record {record} is both a station and an interface"));
            }
        }
        stations.push(station(bytes, record, &interfaces));
    }
    // Tables may share records, which are looked at once for each.
    let mut known = HashSet::new();
    remarks.retain(|remark| known.insert(remark.clone()));
    let remarks = sentences(remarks);
    Read { stations, remarks }
}

/// What is odd about the bytes as a whole and about record 0.
fn odd_size(bytes: &[u8]) -> Vec<String> {
    let (mut remarks, size) = (Vec::new(), bytes.len());
    if size % RECORD != 0 {
        remarks.push(format!("{size} bytes are no whole number of records of 32 bytes"));
    }
    match size / RECORD {
        0 => remarks.push("there is no record".into()),
        records if records > MOST_RECORDS => {
            remarks.push(format!("there are {records} records, and 2,048 is the most"))
        }
        _ => {}
    }
    if let Some(at) = (2..RECORD.min(size)).find(|&at| bytes[at] != 0) {
        remarks.push(format!("byte {at} of record 0 is not zero"));
    }
    remarks
}

fn station(bytes: &[u8], record: usize, interfaces: &[usize]) -> Station {
    let at = RECORD * record;
    let mut key = [0; 16];
    key.copy_from_slice(&bytes[at + 8..at + 24]);
    Station {
        arrival: number(bytes, at + 2) as u16,
        key,
        interfaces: interfaces.iter().map(|&record| interface(bytes, record)).collect(),
    }
}

/// A byte of a record that should be zero and is not.
fn not_zero(bytes: &[u8], record: usize, of: &str, mut zeros: impl Iterator<Item = usize>) -> Option<String> {
    let at = zeros.find(|at| bytes[RECORD * record + at] != 0)?;
    Some(format!("byte {at} of record {record}, {of}, is not zero"))
}

fn interface(bytes: &[u8], record: usize) -> Interface {
    let at = RECORD * record;
    (number(bytes, at + 2) as u16, bytes[at + 4])
}

/// A big-endian number of two bytes; 0 past the end.
fn number(bytes: &[u8], at: usize) -> usize {
    let byte = |at: usize| usize::from(bytes.get(at).copied().unwrap_or(0));
    byte(at) << 8 | byte(at + 1)
}

/// The records of a chain that are there whole, as long as each next is above its own index.
fn chain(bytes: &[u8], first: usize, of: &str, most: usize, remarks: &mut Vec<String>) -> Vec<usize> {
    let count = bytes.len() / RECORD;
    let mut records = Vec::new();
    let mut next = first;
    while next != 0 {
        let stop = if next >= count {
            format!("a chain of {of} records leads to record {next}, and the plan has {count}")
        } else if records.last().is_some_and(|&own| next <= own) {
            format!("a chain of {of} records goes back to record {next}")
        } else if records.len() == most {
            format!("there are more {of} records than are shown")
        } else {
            records.push(next);
            next = number(bytes, RECORD * next);
            continue;
        };
        remarks.push(stop);
        break;
    }
    records
}

/// The most stations of a path. Just a peering path of 64 hops has so many, in the second edition.
pub const MOST_STATIONS: usize = 64;

/// Whether question 23 would let the plan through for a path with as many stations as it has: the library's answer for
/// a path with a hop for each, of one segment, or of two for more hops than a segment has.
pub fn fits_some_path(bytes: &[u8], stations: usize) -> bool {
    let hops = stations.min(MOST_STATIONS);
    let lengths = (hops.min(63) << 12 | (hops / 64) << 6) as u32;
    let mut path = lengths.to_be_bytes().to_vec();
    path.resize(4 + 8 * 2 + 12 * hops, 0);
    if hops == MOST_STATIONS {
        // P in both info fields.
        (path[4], path[12]) = (2, 2);
    }
    let at = ScionNetworkTime::from_timestamp_secs(0);
    Edition::Second.check_journey(&path, bytes, at, at) != Err(JourneyError::UnfitItinerary)
}

#[cfg(test)]
mod tests {
    use super::*;

    #[test]
    fn a_plan_of_1_to_64_stations_fits_some_path() {
        for count in 0..=70 {
            let stations: Vec<Station> = (0..count)
                .map(|arrival| Station {
                    arrival,
                    key: [arrival as u8; 16],
                    interfaces: vec![(1, 4), (2, 6)],
                })
                .collect();
            let bytes = to_bytes(&stations).unwrap();
            let read = read(&bytes);
            assert_eq!((read.stations, read.remarks), (stations, vec![]));
            assert_eq!(
                fits_some_path(&bytes, count.into()),
                (1..=64).contains(&count),
                "{count}"
            );
        }
    }

    #[test]
    fn remarks_have_an_end() {
        let station = |arrival| Station {
            arrival,
            key: [0; 16],
            interfaces: vec![],
        };
        let stations: Vec<Station> = (0..100).map(station).collect();
        let mut bytes = to_bytes(&stations).unwrap();
        for record in bytes.chunks_mut(RECORD) {
            record[31] = 1;
        }
        let read = read(&bytes);
        assert_eq!((read.stations.len(), read.remarks.len()), (100, 21));
        assert_eq!(read.remarks[1], "byte 31 of record 1, a station, is not zero");
        assert_eq!(read.remarks[20], "and 81 more");
    }

    #[test]
    fn what_is_odd_about_records_is_remarked() {
        let station = |arrival| Station {
            arrival,
            key: [0; 16],
            interfaces: vec![(1, 4), (2, 6)],
        };
        let bytes = to_bytes(&[station(0), station(1)]).unwrap();
        assert_eq!(bytes.len(), 7 * RECORD);
        for (at, byte, remark) in [
            (1, 7, "a chain of station records leads to record 7, and the plan has 7"),
            (2 * RECORD + 1, 1, "a chain of station records goes back to record 1"),
            (2 * RECORD + 1, 2, "a chain of station records goes back to record 2"),
            (4 * RECORD + 1, 3, "a chain of interface records goes back to record 3"),
            (
                RECORD + 5,
                9,
                "a chain of interface records leads to record 9, and the plan has 7",
            ),
            (RECORD + 5, 2, "record 2 is both a station and an interface"),
            (RECORD + 6, 1, "byte 6 of record 1, a station, is not zero"),
            (RECORD + 24, 1, "byte 24 of record 1, a station, is not zero"),
            (3 * RECORD + 5, 1, "byte 5 of record 3, an interface, is not zero"),
            (2, 1, "byte 2 of record 0 is not zero"),
        ] {
            let mut bytes = bytes.clone();
            bytes[at] = byte;
            let remarks = read(&bytes).remarks;
            assert!(remarks.iter().any(|said| said == remark), "{remark}: {remarks:?}");
            assert!(!fits_some_path(&bytes, 2), "{remark}");
        }
        assert_eq!(
            read(&bytes[..6 * RECORD + 31]).remarks[0],
            "223 bytes are no whole number of records of 32 bytes"
        );
    }

    #[test]
    fn a_plan_takes_2_048_records() {
        let plan = |interfaces: u16| {
            let interfaces = (0..interfaces).map(|number| (number, 4)).collect();
            to_bytes(&[Station {
                arrival: 0,
                key: [0; 16],
                interfaces,
            }])
        };
        assert_eq!(plan(2_046).unwrap().len(), 2_048 * RECORD);
        assert!(plan(2_047).is_err());
    }

    /// A thousand stations that share a chain of a thousand interfaces: what is read of them has an end.
    #[test]
    fn shared_records_are_read_up_to_a_limit() {
        let mut bytes = vec![0; RECORD * 2_001];
        bytes[1] = 1;
        for record in 1..=2_000u16 {
            let next = if record % 1_000 == 0 { 0 } else { record + 1 };
            let start = RECORD * usize::from(record);
            bytes[start..start + 2].copy_from_slice(&next.to_be_bytes());
            if record <= 1_000 {
                bytes[start + 4..start + 6].copy_from_slice(&1_001u16.to_be_bytes());
            }
        }
        let read = read(&bytes);
        let interfaces: usize = read.stations.iter().map(|station| station.interfaces.len()).sum();
        assert_eq!((read.stations.len(), interfaces), (1_000, MOST_INTERFACES));
        assert_eq!(read.remarks, ["there are more interface records than are shown"]);
    }
}
