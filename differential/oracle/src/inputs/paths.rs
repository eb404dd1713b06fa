//! Random paths with right MACs, and their bytes at any place of their walk.

use sciparse::dataplane_path::standard::mac::algo::{calculate_hop_mac, mac_beta_step};

use super::rng::Rng;
use crate::case::meta;

/// A hop field, and the SegID under which its MAC is right.
#[derive(Clone, Copy, Default)]
pub struct Hop {
    pub flags: u8,
    pub exp_time: u8,
    pub cons_ingress: u16,
    pub cons_egress: u16,
    pub mac: [u8; 6],
    pub beta: u16,
}

/// An info field without its SegID, and hop fields in path order.
#[derive(Clone, Default)]
pub struct Segment {
    pub flags: u8,
    pub reserved: u8,
    pub timestamp: u32,
    pub hops: Vec<Hop>,
}

impl Segment {
    pub fn cons_dir(&self) -> bool {
        self.flags & 1 != 0
    }

    pub fn travel_ingress(&self, hop: usize) -> u16 {
        let hop = self.hops[hop];
        if self.cons_dir() {
            hop.cons_ingress
        } else {
            hop.cons_egress
        }
    }

    pub fn travel_egress(&self, hop: usize) -> u16 {
        let hop = self.hops[hop];
        if self.cons_dir() {
            hop.cons_egress
        } else {
            hop.cons_ingress
        }
    }

    /// The SegID with which a packet comes to a hop from outside.
    fn arriving(&self, hop: usize) -> u16 {
        let Hop { beta, mac, .. } = self.hops[hop];
        if self.cons_dir() {
            beta
        } else {
            mac_beta_step(beta, mac)
        }
    }
}

/// A path of three segments, some of them empty.
#[derive(Clone)]
pub struct Path {
    pub segments: [Segment; 3],
    pub now: u32,
    pub key: [u8; 16],
    reserved: u8,
}

/// A hop by its segment, its place there and its place in the path.
#[derive(Clone, Copy, Debug)]
pub struct Place {
    pub segment: usize,
    pub hop: usize,
    pub curr_hf: usize,
}

impl Path {
    pub fn random(rng: &mut Rng) -> Path {
        let now = match rng.below(16) {
            0 => rng.below(400) as u32,
            1 => u32::MAX - rng.below(400) as u32,
            _ => rng.number() as u32,
        };
        let key = rng.key();
        let segments = random_lengths(rng).map(|length| random_segment(rng, length, now, &key));
        let reserved = if rng.once_in(4) {
            rng.number() as u8 & 0xfc
        } else {
            0
        };
        Path {
            segments,
            now,
            key,
            reserved,
        }
    }

    pub fn lengths(&self) -> [u8; 3] {
        [0, 1, 2].map(|segment| self.segments[segment].hops.len() as u8)
    }

    pub fn places(&self) -> Vec<Place> {
        let mut places = Vec::new();
        for (segment, Segment { hops, .. }) in self.segments.iter().enumerate() {
            for hop in 0..hops.len() {
                let curr_hf = places.len();
                places.push(Place {
                    segment,
                    hop,
                    curr_hf,
                });
            }
        }
        places
    }

    /// The header's bytes at a place: as the packet arrives from outside, or as it is after ingress (also: as it comes
    /// from local hosts).
    pub fn bytes(&self, place: Place, from_outside: bool) -> Vec<u8> {
        let mut bytes = meta(place.segment as u8, place.curr_hf as u8, self.lengths()).to_vec();
        bytes[1] |= self.reserved;
        for (index, segment) in self.segments.iter().enumerate() {
            let Some(first) = segment.hops.first() else {
                continue;
            };
            let segment_id = if index != place.segment {
                first.beta
            } else if from_outside {
                segment.arriving(place.hop)
            } else {
                segment.hops[place.hop].beta
            };
            bytes.extend([segment.flags, segment.reserved]);
            bytes.extend(segment_id.to_be_bytes());
            bytes.extend(segment.timestamp.to_be_bytes());
        }
        for hop in self.segments.iter().flat_map(|segment| &segment.hops) {
            bytes.extend([hop.flags, hop.exp_time]);
            bytes.extend(hop.cons_ingress.to_be_bytes());
            bytes.extend(hop.cons_egress.to_be_bytes());
            bytes.extend(hop.mac);
        }
        bytes
    }

    /// The first hop of the next segment, if a place is the end of one and not the path's.
    pub fn change(&self, place: Place) -> Option<Place> {
        if place.hop + 1 < self.segments[place.segment].hops.len() {
            return None;
        }
        let mut behind = place.segment + 1..3;
        let segment = behind.find(|segment| !self.segments[*segment].hops.is_empty())?;
        Some(Place {
            segment,
            hop: 0,
            curr_hf: place.curr_hf + 1,
        })
    }

    pub fn travel_ingress(&self, place: Place) -> u16 {
        self.segments[place.segment].travel_ingress(place.hop)
    }

    pub fn travel_egress(&self, place: Place) -> u16 {
        self.segments[place.segment].travel_egress(place.hop)
    }
}

/// One to three segments of 2 to 5 hops; now and then shorter, longer (at most 64 in all), or with a gap.
fn random_lengths(rng: &mut Rng) -> [usize; 3] {
    let mut lengths = [0; 3];
    let segments = 1 + rng.below(3);
    for length in &mut lengths[..segments] {
        *length = match rng.below(16) {
            0 => 1,
            1 => 1 + rng.below(63),
            _ => 2 + rng.below(4),
        };
    }
    while lengths.iter().sum::<usize>() > 64 {
        let longest = lengths.iter_mut().max().unwrap();
        *longest -= 1;
    }
    if rng.once_in(16) {
        lengths.swap(rng.below(3), 2);
    }
    lengths
}

fn random_segment(rng: &mut Rng, length: usize, now: u32, key: &[u8; 16]) -> Segment {
    let cons_dir = rng.below(2) as u8;
    // at most the shortest lifetime ago
    let timestamp = now.saturating_sub(rng.below(338) as u32);
    let mut segment = Segment {
        flags: cons_dir
            | if rng.once_in(4) {
                rng.number() as u8 & 0xfe
            } else {
                0
            },
        reserved: if rng.once_in(4) {
            rng.number() as u8
        } else {
            0
        },
        timestamp,
        hops: (0..length).map(|_| random_hop(rng)).collect(),
    };
    let mut beta = rng.number() as u16;
    for place in 0..length {
        let place = if cons_dir == 1 {
            place
        } else {
            length - 1 - place
        };
        let hop = &mut segment.hops[place];
        let (ingress, egress) = (hop.cons_ingress, hop.cons_egress);
        hop.beta = beta;
        hop.mac = calculate_hop_mac(beta, timestamp, hop.exp_time, ingress, egress, key);
        beta = mac_beta_step(beta, hop.mac);
    }
    segment
}

fn random_hop(rng: &mut Rng) -> Hop {
    Hop {
        flags: match rng.below(16) {
            0 | 1 => rng.below(4) as u8,
            2 => rng.number() as u8,
            3 => rng.number() as u8 & 0xfc,
            _ => 0,
        },
        exp_time: {
            let any = rng.number() as u8;
            rng.pick(&[0, 0, 1, 63, 254, 255, any])
        },
        cons_ingress: random_interface(rng),
        cons_egress: random_interface(rng),
        ..Hop::default()
    }
}

pub fn random_interface(rng: &mut Rng) -> u16 {
    match rng.below(8) {
        0 => 0,
        1 => rng.pick(&[1, 2, 255, 256, 0xfffe, 0xffff]),
        _ => rng.number() as u16,
    }
}
