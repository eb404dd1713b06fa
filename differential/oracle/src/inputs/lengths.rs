//! Every triple of lengths, and every place in those of at most 64 hops.

use super::{Visit, rng::Rng};
use crate::{Call, Case, case::meta, sizes};

/// All 262,144.
pub fn triples() -> impl Iterator<Item = [u8; 3]> {
    (0..64u32 * 64 * 64).map(|word| [12, 6, 0].map(|shift| (word >> shift & 63) as u8))
}

/// Each triple at the size it needs and at one byte less, in each call; a part of them if `of` is not 1.
pub fn needed_sizes(part: usize, of: usize, visit: Visit) {
    let mut case = blank();
    for lengths in triples().skip(part).step_by(of) {
        let needed = sizes(lengths).bytes;
        for size in [needed, needed - 1] {
            case.path.clear();
            case.path.extend(meta(0, 0, lengths));
            case.path.resize(size, 0);
            for call in Call::ALL {
                case.call = call;
                visit(&case);
            }
        }
    }
}

/// Each triple of at most 64 hops with each CurrHF and CurrINF, in each call, the fields filled with numbers that often
/// fit together; a part of the triples if `of` is not 1.
pub fn places(seed: u64, part: usize, of: usize, visit: Visit) {
    let mut rng = Rng::new(seed);
    let mut case = blank();
    let few = triples().filter(|lengths| sizes(*lengths).hop_fields <= 64);
    for lengths in few.skip(part).step_by(of) {
        let sizes = sizes(lengths);
        case.path.resize(sizes.bytes, 0);
        fill_likely(&mut rng, &mut case.path[4..], sizes.info_fields);
        fill_table(&mut rng, &mut case);
        for place in 0..=255u8 {
            case.path[..4].copy_from_slice(&meta(place >> 6, place & 63, lengths));
            case.path[1] |= (rng.number() as u8) & 0xfc;
            case.interface = rng.below(4) as u16;
            case.now = 1000 + rng.below(4) as u32 * 113;
            case.ignore_macs = !rng.once_in(8);
            for call in Call::ALL {
                case.call = call;
                visit(&case);
            }
        }
    }
}

fn blank() -> Case {
    Case {
        call: Call::Step,
        path: Vec::new(),
        ids: vec![0],
        states: vec![6],
        interface: 0,
        now: 0,
        key: [0; 16],
        ignore_macs: true,
    }
}

/// Fields with few different values: times around 1000, interfaces below 4, alerts now and then.
pub fn fill_likely(rng: &mut Rng, fields: &mut [u8], infos: usize) {
    let (info_fields, hop_fields) = fields.split_at_mut(8 * infos);
    for info in info_fields.chunks_mut(8) {
        rng.fill(info);
        let timestamp = 1001 - rng.below(3) as u32 / 2 - rng.below(300) as u32;
        info[4..].copy_from_slice(&timestamp.to_be_bytes());
    }
    for hop in hop_fields.chunks_mut(12) {
        rng.fill(hop);
        if !rng.once_in(4) {
            hop[0] &= 0xfc;
        }
        hop[1] %= 2;
        let interfaces = [0, hop[3] % 4, 0, hop[5] % 4];
        hop[2..6].copy_from_slice(&interfaces);
    }
}

/// The interfaces 0 to 3, one of them left out now and then, mostly up and to children.
fn fill_table(rng: &mut Rng, case: &mut Case) {
    case.ids = (0..4).filter(|_| !rng.once_in(8)).collect();
    let state = |_| {
        if rng.once_in(3) {
            rng.below(8) as u8
        } else {
            6
        }
    };
    case.states = case.ids.iter().map(state).collect();
}
