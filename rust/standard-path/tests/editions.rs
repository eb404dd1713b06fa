//! The editions: where they agree, what the second refuses, and peering paths that travel in it, there and back.

use standard_path::*;

const NOW: ScionNetworkTime = ScionNetworkTime(1337);
const C: u8 = 1;
const P: u8 = 2;

fn table() -> InterfaceTable {
    InterfaceTable::new([1, 2], [6, 6]).unwrap()
}

// ---- random paths

struct Random(u32);

impl Random {
    fn below(&mut self, count: u32) -> u32 {
        self.0 = self.0.wrapping_mul(1_664_525).wrapping_add(1_013_904_223);
        (self.0 >> 8) % count
    }

    fn once_in(&mut self, count: u32) -> bool {
        self.below(count) == 0
    }

    /// Few hops with small numbers, at any of them; P in no info field, in some, or in all.
    fn path(&mut self) -> Vec<u8> {
        let segments = 1 + self.below(3);
        let lengths = [0, 1, 2].map(|segment| if segment < segments { 1 + self.below(3) } else { 0 });
        let hop = self.below(lengths.iter().sum::<u32>() + 1);
        let info = u32::from(hop >= lengths[0]) + u32::from(hop >= lengths[0] + lengths[1]);
        let [first, second, third] = lengths;
        let word = info << 30 | hop << 24 | first << 12 | second << 6 | third;
        let mut path = word.to_be_bytes().to_vec();
        let (least, above) = [(0, 2), (0, 4), (2, 2)][self.below(3) as usize];
        for _ in 0..segments {
            path.extend([least + self.below(above) as u8, 0, 0x12, 0x34, 0, 0, 3, 232]);
        }
        for _ in 0..first + second + third {
            let alert = if self.once_in(8) { self.below(4) as u8 } else { 0 };
            path.extend([alert, 0, 0, self.below(3) as u8, 0, self.below(3) as u8]);
            path.extend([0; 6]);
        }
        if self.once_in(16) {
            path.truncate(self.below(path.len() as u32) as usize);
        }
        path
    }
}

fn has_p(path: &[u8]) -> bool {
    let Some(word) = path.first_chunk() else { return false };
    let word = u32::from_be_bytes(*word);
    let infos = [12, 6, 0].iter().filter(|shift| word >> **shift & 63 != 0).count();
    (0..infos).any(|info| path.get(4 + 8 * info).is_some_and(|flags| flags & P != 0))
}

/// The answer of a call with its bytes.
type Left<T> = (T, Vec<u8>);

fn left<T>(path: &[u8], call: impl FnOnce(&mut [u8]) -> T) -> Left<T> {
    let mut path = path.to_vec();
    (call(&mut path), path)
}

#[test]
fn the_first_is_the_root_and_without_p_the_second_is_the_first() {
    let (table, key) = (table(), [7; 16]);
    let mut random = Random(1);
    let (mut without, mut with, mut misplaced) = (0, 0, 0);
    for _ in 0..50_000 {
        let path = random.path();
        let (interface, ignore_macs) = (random.below(3) as u16, !random.once_in(8));
        let now = ScionNetworkTime(if random.once_in(8) { 1338 } else { 1000 });

        let step = |path: &mut [u8]| handle_standard_path(path, interface, now, &key, &table, ignore_macs);
        let ingress = |path: &mut [u8]| standard_path_ingress(path, interface, now, &key, &table, ignore_macs);
        let egress = |path: &mut [u8]| standard_path_egress(path, interface, now, &key, &table, ignore_macs);
        let root = (left(&path, step), left(&path, ingress), left(&path, egress));
        let [first, second] = [Edition::First, Edition::Second].map(|edition| {
            (
                left(&path, |path| {
                    edition.handle_standard_path(path, interface, now, &key, &table, ignore_macs)
                }),
                left(&path, |path| {
                    edition.standard_path_ingress(path, interface, now, &key, &table, ignore_macs)
                }),
                left(&path, |path| {
                    edition.standard_path_egress(path, interface, now, &key, &table, ignore_macs)
                }),
            )
        });
        assert_eq!(first, root, "{path:?}");
        if !has_p(&path) {
            assert_eq!(second, first, "{path:?}");
            without += 1;
        } else if second != first {
            with += 1;
        }
        if second.0 .0.is_err_and(|refusal| refusal.number() == 28) {
            assert_eq!(second.0 .1, path);
            misplaced += 1;
        }
    }
    assert!(
        without > 1000 && with > 1000 && misplaced > 1000,
        "{without} {with} {misplaced}"
    );
}

// ---- peering paths

fn key(station: usize) -> ForwardingKey {
    [station as u8; 16]
}

/// A peering path with a station for each hop, come to by interface 1 and left by interface 2. Good from 1000 to 1337.
fn peering_path(lengths: [usize; 2], cons_dirs: [bool; 2]) -> Vec<u8> {
    let hops = lengths[0] + lengths[1];
    let mut path = (lengths[0] << 12 | lengths[1] << 6).to_be_bytes()[4..].to_vec();
    let mut hop_fields = vec![Vec::new(); hops];
    for (info, first) in [(0, 0), (1, lengths[0])] {
        let cons_dir = cons_dirs[info];
        let initial = 0x1234 + info as u16;
        let mut beta = initial;
        let mut built: Vec<usize> = (first..first + lengths[info]).collect();
        if !cons_dir {
            built.reverse();
        }
        for hop in built {
            let (ingress, egress) = (u16::from(hop != 0), if hop + 1 == hops { 0 } else { 2 });
            let (cons_ingress, cons_egress) = if cons_dir { (ingress, egress) } else { (egress, ingress) };
            let mac = calculate_hop_mac(beta, 1000, 0, cons_ingress, cons_egress, &key(hop));
            // Against construction the segment starts with the beta of its first hop.
            let is_peering = hop + 1 == lengths[0] || hop == lengths[0];
            if !is_peering && (cons_dir || hop != first) {
                beta ^= u16::from_be_bytes([mac[0], mac[1]]);
            }
            hop_fields[hop].extend([0, 0]);
            hop_fields[hop].extend(cons_ingress.to_be_bytes());
            hop_fields[hop].extend(cons_egress.to_be_bytes());
            hop_fields[hop].extend(mac);
        }
        path.extend([P | if cons_dir { C } else { 0 }, 0]);
        path.extend(if cons_dir { initial } else { beta }.to_be_bytes());
        path.extend([0, 0, 3, 232]);
    }
    path.extend(hop_fields.concat());
    path
}

/// The itinerary of so many stations, which share the table.
fn itinerary(stations: usize) -> Vec<u8> {
    let mut records = vec![[0; 32]; 1 + stations + 2];
    records[0][1] = 1;
    for station in 0..stations {
        let record = &mut records[1 + station];
        record[1] = if station + 1 < stations { station as u8 + 2 } else { 0 };
        record[3] = u8::from(station != 0);
        record[5] = stations as u8 + 1;
        record[8..24].copy_from_slice(&key(station));
    }
    records[stations + 1][..5].copy_from_slice(&[0, stations as u8 + 2, 0, 1, 6]);
    records[stations + 2][..5].copy_from_slice(&[0, 0, 0, 2, 6]);
    records.concat()
}

/// Over these stations in the second edition, each come to by one interface and left by the other.
fn travel(path: &mut [u8], stations: impl ExactSizeIterator<Item = usize>, arrival: u16, leaving: u16) {
    let last = stations.len() - 1;
    for (turn, station) in stations.enumerate() {
        let ingress = if turn == 0 { 0 } else { arrival };
        let action = Edition::Second.handle_standard_path(path, ingress, NOW, &key(station), &table(), false);
        let expected = if turn == last {
            AsRoutingAction::Local(LocalAsRoutingAction::ForwardLocal)
        } else {
            AsRoutingAction::ForwardNextHop {
                egress_interface_id: leaving,
            }
        };
        assert_eq!(action, Ok(expected), "station {station}");
    }
}

#[test]
fn a_peering_path_travels_there_and_back() {
    for first in 1..5 {
        for second in 1..5 {
            for cons_dirs in [[false, true], [false, false], [true, true], [true, false]] {
                let sent = peering_path([first, second], cons_dirs);
                let hops = first + second;
                let check = |edition: Edition, stations, latest| {
                    edition.check_journey(
                        &sent,
                        &itinerary(stations),
                        ScionNetworkTime(1000),
                        ScionNetworkTime(latest),
                    )
                };
                assert_eq!(check(Edition::Second, hops, 1337), Ok(Verdict::Passed));
                assert!(matches!(
                    check(Edition::Second, hops, 1338),
                    Ok(Verdict::NotPassed { .. })
                ));
                assert_eq!(
                    check(Edition::Second, hops - 1, 1337),
                    Err(JourneyError::UnfitItinerary)
                );
                assert_eq!(check(Edition::First, hops, 1337), Err(JourneyError::UnfitItinerary));
                assert!(matches!(
                    check(Edition::First, hops - 1, 1337),
                    Ok(Verdict::NotPassed { .. })
                ));

                let mut path = sent.clone();
                travel(&mut path, 0..hops, 1, 2);
                try_reverse(&mut path).unwrap();
                travel(&mut path, (0..hops).rev(), 2, 1);
                try_reverse(&mut path).unwrap();
                assert_eq!((path[0], &path[1..]), (0, &sent[1..]));
            }
        }
    }
}

#[test]
fn over_the_peering_link_both_indices_move() {
    let at_link =
        |edition: Edition, path: &mut [u8]| edition.standard_path_egress(path, 2, NOW, &key(1), &table(), false);
    let mut path = peering_path([2, 2], [false, true]);
    let first =
        |path: &mut [u8], station, ingress| handle_standard_path(path, ingress, NOW, &key(station), &table(), false);
    first(&mut path, 0, 0).unwrap();
    assert_eq!(path[0], 1);
    let refused = at_link(Edition::First, &mut path.clone()).unwrap_err();
    assert_eq!(refused.error, AdvanceError::SegmentEnd.into());
    // The first edition takes a beta step where the MAC chain has none.
    let refused = first(&mut path.clone(), 1, 1).unwrap_err();
    assert!(matches!(
        refused.error,
        StandardRoutingError::InvalidMacError { hop_index: 1, .. }
    ));
    assert_eq!(
        at_link(Edition::Second, &mut path),
        Ok(AsRoutingAction::ForwardNextHop { egress_interface_id: 2 })
    );
    assert_eq!(path[0], 1 << 6 | 2);

    let refused = first(&mut peering_path([1, 2], [false, true]), 0, 0).unwrap_err();
    assert_eq!(refused.error, AdvanceError::SingleHopSegment.into());
}

#[test]
fn p_elsewhere_is_refused_by_the_second_edition_alone() {
    let mut path = peering_path([2, 2], [true, true]);
    path[4] = C;
    let given = path.clone();
    let refusal = Refusal {
        error: AdvanceError::MisplacedPeering.into(),
        scmp: None,
    };
    let (table, key) = (table(), key(0));
    let second = Edition::Second;
    assert_eq!(
        second.handle_standard_path(&mut path, 0, NOW, &key, &table, false),
        Err(refusal)
    );
    assert_eq!(
        second.standard_path_ingress(&mut path, 0, NOW, &key, &table, false),
        Err(refusal)
    );
    assert_eq!(
        second.standard_path_egress(&mut path, 2, NOW, &key, &table, false),
        Err(refusal)
    );
    assert_eq!(path, given);
    assert_eq!(refusal.number(), 28);
    assert_eq!(refusal.to_string(), "P is set on a path that is no peering path");
    assert!(handle_standard_path(&mut path, 0, NOW, &key, &table, false).is_ok());
}
