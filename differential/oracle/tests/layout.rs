//! Sizes, info counts and segment indices of all 262,144 length triples, against 01's rule written again here.

use oracle::{calculate_segment_index, case::meta, inputs::lengths::triples, size_of_path, sizes};

#[test]
fn sizes_and_counts() {
    for lengths in triples() {
        let infos = lengths.iter().filter(|length| **length != 0).count();
        let hops: usize = lengths.iter().map(|length| *length as usize).sum();
        let found = sizes(lengths);
        assert_eq!((found.info_fields, found.hop_fields), (infos, hops));
        assert_eq!(found.bytes, 4 + 8 * infos + 12 * hops);

        let mut path = meta(3, 63, lengths).to_vec();
        path.resize(found.bytes + 1, 0xff);
        assert_eq!(size_of_path(&path), Some(found.bytes));
        assert_eq!(size_of_path(&path[..found.bytes]), Some(found.bytes));
        assert_eq!(size_of_path(&path[..found.bytes - 1]), None);
    }
}

/// A segment's place among the three lengths; zero lengths keep theirs.
#[test]
fn segment_indices() {
    for lengths in triples() {
        let [a, b, c] = lengths.map(usize::from);
        let ends = [a, a + b, a + b + c];
        for hop in 0..=a + b + c + 1 {
            let expected = ends.iter().position(|end| hop < *end).map(|segment| {
                let start = ends[segment] - lengths[segment] as usize;
                (segment, hop == start, hop + 1 == ends[segment])
            });
            assert_eq!(calculate_segment_index(lengths, hop), expected);
        }
    }
}
