//! A path header from its text, its MACs worked out. The MAC itself is the library's.

use crate::header::{turned, Header};
use crate::hop_text::HopText;
use crate::mistake::{mistake, Checked};
use crate::path_text::{PathText, SegmentText, Start};
use standard_path::{calculate_hop_mac, Edition, ForwardingKey};

pub struct Signed {
    pub bytes: Vec<u8>,
    /// How many MACs were worked out.
    pub worked_out: usize,
    /// The hops that no key was there for, in path order, each with its station. Their MACs are zeros.
    pub unsigned: Vec<(usize, usize)>,
}

/// Writes the header. The stations' keys go to the hops in path order, one each, but a segment's last hop and the next
/// one's first have one station, unless they are peering hops.
pub fn sign(path: &PathText, keys: &[ForwardingKey], edition: Edition) -> Checked<Signed> {
    let mut bytes = start(path);
    let mut signer = Signer {
        keys,
        peering_hops: Header(&bytes).peering_hops(edition),
        hop: 0,
        station: 0,
        worked_out: 0,
        unsigned: Vec::new(),
    };
    for (index, segment) in path.segments.iter().flatten().enumerate() {
        let (seg_id, macs) = signer.segment(segment)?;
        let at = Header(&bytes).info_at(index) + 2;
        bytes[at..at + 2].copy_from_slice(&seg_id.to_be_bytes());
        for (hop, mac) in segment.hops.iter().zip(macs) {
            bytes.extend(hop_bytes(hop, segment.cons_dir, mac));
        }
    }
    bytes.extend(&path.behind);
    signer.unsigned.sort();
    Ok(Signed {
        bytes,
        worked_out: signer.worked_out,
        unsigned: signer.unsigned,
    })
}

/// The meta word and the info fields, whose SegIDs are to come.
fn start(path: &PathText) -> Vec<u8> {
    let length = |place: usize| match path.segments.get(place) {
        Some(Some(segment)) => segment.hops.len() as u32,
        _ => 0,
    };
    let word = u32::from(path.curr_inf) << 30 | u32::from(path.curr_hf) << 24 | u32::from(path.reserved) << 18;
    let word = word | length(0) << 12 | length(1) << 6 | length(2);
    let infos = path.segments.iter().flatten().flat_map(info_bytes);
    word.to_be_bytes().into_iter().chain(infos).collect()
}

struct Signer<'a> {
    keys: &'a [ForwardingKey],
    peering_hops: Option<[usize; 2]>,
    /// The segment's first hop, and that hop's station.
    hop: usize,
    station: usize,
    worked_out: usize,
    unsigned: Vec<(usize, usize)>,
}

impl Signer<'_> {
    /// The SegID that the header carries at its start, and the MACs in the order of travel.
    fn segment(&mut self, segment: &SegmentText) -> Checked<(u16, Vec<[u8; 6]>)> {
        let count = segment.hops.len();
        let mut macs = vec![[0; 6]; count];
        let seg_id = match (segment.cons_dir, segment.start) {
            // The first hop's MAC is made with the SegID, each later one's with the heads of those before it.
            (true, Start::SegId(seg_id) | Start::Beta(seg_id)) => {
                let mut beta = seg_id;
                for (at, mac) in macs.iter_mut().enumerate() {
                    *mac = self.mac(segment, at, beta);
                    beta ^= self.link(at, *mac);
                }
                seg_id
            }
            // The last hop was constructed first. The header starts with what the chain has come to at the first hop.
            (false, Start::Beta(beta)) => {
                let mut beta = beta;
                for at in (1..count).rev() {
                    macs[at] = self.mac(segment, at, beta);
                    beta ^= self.link(at, macs[at]);
                }
                macs[0] = self.mac(segment, 0, beta);
                beta
            }
            (false, Start::SegId(seg_id)) => {
                let mut beta = seg_id;
                for (at, mac) in macs.iter_mut().enumerate() {
                    beta ^= self.own_link(segment, at)?;
                    *mac = self.mac(segment, at, beta);
                }
                seg_id
            }
        };
        self.hop += count;
        // Another station has the next segment's first hop only behind a peering link.
        self.station += count - usize::from(self.peering_hops.is_none());
        Ok((seg_id, macs))
    }

    fn is_peering_hop(&self, at: usize) -> bool {
        self.peering_hops.is_some_and(|hops| hops.contains(&(self.hop + at)))
    }

    /// What a hop's MAC adds to the chain: its head, but a peering hop's adds nothing.
    fn link(&self, at: usize, mac: [u8; 6]) -> u16 {
        match self.is_peering_hop(at) {
            true => 0,
            false => u16::from_be_bytes([mac[0], mac[1]]),
        }
    }

    /// What a hop's MAC adds to the SegID that it is made with itself: against construction all do but the first hop's and
    /// a peering hop's. One that does can't be worked out.
    fn own_link(&self, segment: &SegmentText, at: usize) -> Checked<u16> {
        let hop = &segment.hops[at];
        match hop.mac {
            _ if at == 0 || self.is_peering_hop(at) => Ok(0),
            Some(mac) => Ok(self.link(at, mac)),
            None => mistake(format!(
                "{}: with `cons_dir no` and `seg_id` this hop needs a `mac`: write `beta` in place of `seg_id`, and the \
                 MACs and the SegID are worked out",
                hop.place
            )),
        }
    }

    /// The MAC of a hop: the one given, else the library's under the station's key, else zeros.
    fn mac(&mut self, segment: &SegmentText, at: usize, seg_id: u16) -> [u8; 6] {
        let hop = &segment.hops[at];
        if let Some(mac) = hop.mac {
            return mac;
        }
        let (index, station) = (self.hop + at, self.station + at);
        let Some(key) = self.keys.get(station) else {
            self.unsigned.push((index, station));
            return [0; 6];
        };
        self.worked_out += 1;
        let [ingress, egress] = turned(segment.cons_dir, hop.travel);
        calculate_hop_mac(seg_id, segment.timestamp, hop.exp_time, ingress, egress, key)
    }
}

fn info_bytes(segment: &SegmentText) -> [u8; 8] {
    let flags = segment.reserved_flags | u8::from(segment.cons_dir) | u8::from(segment.peering) << 1;
    let [t0, t1, t2, t3] = segment.timestamp.to_be_bytes();
    [flags, segment.reserved, 0, 0, t0, t1, t2, t3]
}

fn hop_bytes(hop: &HopText, cons_dir: bool, mac: [u8; 6]) -> [u8; 12] {
    let [ingress_alert, egress_alert] = turned(cons_dir, hop.alerts.map(u8::from));
    let flags = hop.reserved_flags | ingress_alert << 1 | egress_alert;
    let [[i0, i1], [e0, e1]] = turned(cons_dir, hop.travel).map(u16::to_be_bytes);
    let [m0, m1, m2, m3, m4, m5] = mac;
    [flags, hop.exp_time, i0, i1, e0, e1, m0, m1, m2, m3, m4, m5]
}
