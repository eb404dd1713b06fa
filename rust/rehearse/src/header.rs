//! The fields of a path header, read for showing them. Nothing is decided here: a byte past the end reads as 0, and a
//! field that is not whole is none.

use standard_path::{expiration, Edition};

/// The bytes of a path, from its first on.
#[derive(Clone, Copy)]
pub struct Header<'a>(pub &'a [u8]);

/// A length that is not 0, with the info field and the hops that go with it.
pub struct Segment {
    /// The length's place among the three. A path that stands in the segment has this info field, by CurrINF.
    pub place: usize,
    /// The info field that is written for it: they follow each other without gaps.
    pub info: usize,
    /// The info field that the step takes when it comes to the segment: the first by its place, a later one behind that of
    /// the segment before it.
    pub reached: usize,
    pub first_hop: usize,
    pub hops: usize,
}

impl Segment {
    pub fn last_hop(&self) -> usize {
        self.first_hop + self.hops - 1
    }
}

pub struct Info {
    pub bytes: [u8; 8],
}

pub struct Hop {
    pub bytes: [u8; 12],
}

impl<'a> Header<'a> {
    fn word(&self) -> u32 {
        let byte = |at: usize| u32::from(self.0.get(at).copied().unwrap_or(0));
        byte(0) << 24 | byte(1) << 16 | byte(2) << 8 | byte(3)
    }

    pub fn curr_inf(&self) -> u8 {
        (self.word() >> 30) as u8
    }

    pub fn curr_hf(&self) -> u8 {
        (self.word() >> 24) as u8 & 63
    }

    pub fn reserved(&self) -> u8 {
        (self.word() >> 18) as u8 & 63
    }

    pub fn lengths(&self) -> [usize; 3] {
        [12, 6, 0].map(|shift| (self.word() >> shift) as usize & 63)
    }

    pub fn hops(&self) -> usize {
        self.lengths().iter().sum()
    }

    pub fn infos(&self) -> usize {
        self.lengths().iter().filter(|&&length| length != 0).count()
    }

    /// Whether the edition takes the path for one over a peering link: just its first two lengths are not 0, and P is set
    /// in both info fields.
    pub fn is_peering_path(&self, edition: Edition) -> bool {
        let is_peering = |index: usize| self.info(index).is_some_and(|info| info.peering());
        let has_two = matches!(self.lengths().map(|length| length > 0), [true, true, false]);
        edition == Edition::Second && has_two && is_peering(0) && is_peering(1)
    }

    /// The two hops at the peering link: the first segment's last and the second's first.
    pub fn peering_hops(&self, edition: Edition) -> Option<[usize; 2]> {
        let [first, ..] = self.lengths();
        self.is_peering_path(edition).then(|| [first - 1, first])
    }

    /// How many stations the path asks for: one for each hop, but one for the two of a segment change.
    pub fn stations(&self, edition: Edition) -> usize {
        match self.is_peering_path(edition) {
            true => self.hops(),
            false => self.hops() - self.infos() + 1,
        }
    }

    /// The same as a rule, with what the other edition has where that is a peering path's.
    pub fn stations_rule(&self, edition: Edition) -> String {
        match (self.is_peering_path(Edition::Second), edition) {
            (false, _) => "hops - infos + 1".into(),
            (true, Edition::First) => format!("hops - infos + 1; with `--edition 2` for {}", self.hops()),
            (true, Edition::Second) => "one for each hop of a peering path".into(),
        }
    }

    /// How many bytes the header has by its lengths.
    pub fn size(&self) -> usize {
        4 + 8 * self.infos() + 12 * self.hops()
    }

    pub fn info_at(&self, index: usize) -> usize {
        4 + 8 * index
    }

    pub fn hop_at(&self, index: usize) -> usize {
        4 + 8 * self.infos() + 12 * index
    }

    pub fn info(&self, index: usize) -> Option<Info> {
        let bytes = self.0.get(self.info_at(index)..)?.first_chunk()?;
        Some(Info { bytes: *bytes })
    }

    pub fn hop(&self, index: usize) -> Option<Hop> {
        let bytes = self.0.get(self.hop_at(index)..)?.first_chunk()?;
        Some(Hop { bytes: *bytes })
    }

    /// An info field that the header has by its lengths.
    pub fn own_info(&self, index: usize) -> Option<Info> {
        self.info(index).filter(|_| index < self.infos())
    }

    /// The current hop or the one behind it, with its index and the info field that the step takes for it: the current
    /// one, and behind a segment change the next.
    pub fn hop_in_step(&self, index: usize) -> Option<(usize, Info, Hop)> {
        let moved = index.checked_sub(self.curr_hf().into())?;
        let info = self.own_info(usize::from(self.curr_inf()) + moved)?;
        Some((index, info, self.hop(index)?))
    }

    pub fn segments(&self) -> Vec<Segment> {
        let (mut segments, mut first_hop) = (Vec::new(), 0);
        for (place, hops) in self
            .lengths()
            .into_iter()
            .enumerate()
            .filter(|&(_, length)| length != 0)
        {
            let before = segments.last().map(|segment: &Segment| segment.place);
            segments.push(Segment {
                place,
                info: segments.len(),
                reached: before.map_or(place, |before| before + 1),
                first_hop,
                hops,
            });
            first_hop += hops;
        }
        segments
    }

    /// Whether a length of 0 stands before another.
    pub fn has_gap(&self) -> bool {
        self.segments().iter().any(|segment| segment.place != segment.info)
    }

    /// The header's own bytes, as far as they are there, and those behind it.
    pub fn parts(&self) -> (&'a [u8], &'a [u8]) {
        self.0.split_at(self.size().min(self.0.len()))
    }

    /// The sizes of meta word, info fields and hop fields, in order.
    pub fn sizes(&self) -> Vec<usize> {
        let infos = std::iter::repeat_n(8, self.infos());
        std::iter::once(4)
            .chain(infos)
            .chain(std::iter::repeat_n(12, self.hops()))
            .collect()
    }

    /// The header's fields: where each starts, how many bytes it has, its name.
    pub fn fields(&self) -> Vec<(usize, usize, String)> {
        let mut fields = vec![
            (0, 1, "CurrINF, CurrHF".to_string()),
            (1, 3, "reserved bits, lengths".to_string()),
        ];
        for index in 0..self.infos() {
            for (at, size, name) in [
                (0, 1, "flags"),
                (1, 1, "reserved byte"),
                (2, 2, "SegID"),
                (4, 4, "timestamp"),
            ] {
                fields.push((self.info_at(index) + at, size, format!("{name} of info field {index}")));
            }
        }
        for index in 0..self.hops() {
            for (at, size, name) in [
                (0, 1, "flags"),
                (1, 1, "ExpTime"),
                (2, 2, "ConsIngress"),
                (4, 2, "ConsEgress"),
                (6, 6, "MAC"),
            ] {
                fields.push((self.hop_at(index) + at, size, format!("{name} of hop {index}")));
            }
        }
        fields
    }
}

impl Info {
    pub fn cons_dir(&self) -> bool {
        self.bytes[0] & 1 != 0
    }

    pub fn peering(&self) -> bool {
        self.bytes[0] & 2 != 0
    }

    pub fn reserved_flags(&self) -> u8 {
        self.bytes[0] & !3
    }

    pub fn reserved(&self) -> u8 {
        self.bytes[1]
    }

    pub fn seg_id(&self) -> u16 {
        u16::from_be_bytes([self.bytes[2], self.bytes[3]])
    }

    pub fn timestamp(&self) -> u32 {
        u32::from_be_bytes([self.bytes[4], self.bytes[5], self.bytes[6], self.bytes[7]])
    }
}

impl Hop {
    pub fn reserved_flags(&self) -> u8 {
        self.bytes[0] & !3
    }

    pub fn exp_time(&self) -> u8 {
        self.bytes[1]
    }

    /// ConsIngress and ConsEgress.
    fn interfaces(&self) -> [u16; 2] {
        [[2, 3], [4, 5]].map(|[high, low]| u16::from_be_bytes([self.bytes[high], self.bytes[low]]))
    }

    /// The interfaces in travel direction: in, out.
    pub fn travel(&self, cons_dir: bool) -> [u16; 2] {
        turned(cons_dir, self.interfaces())
    }

    /// The alerts in travel direction: in, out.
    pub fn alerts(&self, cons_dir: bool) -> [bool; 2] {
        turned(cons_dir, [self.bytes[0] & 2 != 0, self.bytes[0] & 1 != 0])
    }

    pub fn mac(&self) -> [u8; 6] {
        [6, 7, 8, 9, 10, 11].map(|at| self.bytes[at])
    }

    /// The moment that the hop ends: what the library says of a path that has this hop alone.
    pub fn ends(&self, info: &Info) -> Option<u32> {
        let mut alone = vec![0, 0, 1 << 4, 0];
        alone.extend(info.bytes);
        alone.extend(self.bytes);
        expiration(&alone).ok()
    }
}

/// Two things of a hop in construction direction as they come in travel direction, and the other way round.
pub fn turned<T>(cons_dir: bool, [first, second]: [T; 2]) -> [T; 2] {
    if cons_dir {
        [first, second]
    } else {
        [second, first]
    }
}

#[cfg(test)]
mod tests {
    use super::*;
    use standard_path::{HeaderError, Interfaces, ScionNetworkTime};

    #[test]
    fn a_header_ends_where_the_library_says_so() {
        for word in (0..1u32 << 18).step_by(7).chain([0, 0x2002, 0x3ffff]) {
            let size = Header(&word.to_be_bytes()).size();
            let mut path = vec![0; size];
            path[..4].copy_from_slice(&word.to_be_bytes());
            let short = if size == 4 {
                HeaderError::MetaTooShort
            } else {
                HeaderError::DataTooShort
            };
            assert_eq!(expiration(&path[..size - 1]), Err(short));
            assert!(matches!(expiration(&path), Ok(_) | Err(HeaderError::TooManyHops)));
        }
    }

    /// 28 is the library's answer where P is set on a path that is no peering path.
    #[test]
    fn a_peering_path_is_the_library_s() {
        for word in [0x2000u32, 0x2080, 0x2002, 0x2082] {
            for flags in 0..8u8 {
                let mut path = vec![0; Header(&word.to_be_bytes()).size()];
                path[..4].copy_from_slice(&word.to_be_bytes());
                let infos = Header(&path).infos();
                for index in 0..infos {
                    path[4 + 8 * index] = (flags >> index & 1) << 1;
                }
                let is_set = usize::from(flags).trailing_zeros() < infos as u32;
                let is_peering_path = Header(&path).is_peering_path(Edition::Second);
                let (now, none) = (ScionNetworkTime(0), Interfaces { ids: &[], states: &[] });
                let answer = Edition::Second.standard_path_ingress(&mut path, 0, now, &[0; 16], none, true);
                let is_refused = answer.is_err_and(|refusal| refusal.number() == 28);
                assert_eq!(is_refused, is_set && !is_peering_path, "{word:x} {flags}");
                assert!(!Header(&path).is_peering_path(Edition::First));
            }
        }
    }

    #[test]
    fn a_field_that_is_not_whole_is_none() {
        let path = [0, 0, 0x20, 0x40, 1, 2, 3, 4, 5, 6, 7];
        let header = Header(&path);
        assert_eq!((header.infos(), header.hops()), (2, 3));
        assert!(header.info(0).is_none() && header.hop(0).is_none() && header.hop(usize::MAX / 16).is_none());
        assert_eq!(Header(&[0x40]).curr_inf(), 1);
    }

    #[test]
    fn a_hop_ends_as_the_scope_has_it() {
        for (timestamp, exp_time, end) in [(1000u32, 0, 1337), (1000, 255, 87_400), (4_294_967_000, 0, u32::MAX)] {
            let (mut info, mut hop) = (Info { bytes: [0; 8] }, Hop { bytes: [0; 12] });
            info.bytes[4..].copy_from_slice(&timestamp.to_be_bytes());
            hop.bytes[1] = exp_time;
            assert_eq!(hop.ends(&info), Some(end));
        }
    }
}
