//! The rest of the interface: tables, segment indices, MACs, empty slices, and what is shown to operators.

use standard_path::*;

const NOW: ScionNetworkTime = ScionNetworkTime(1337);

fn table_answer(ids: &[u16], states: &[u8]) -> StandardRoutingError {
    handle_standard_path(&mut [], 0, NOW, &[0; 16], Interfaces { ids, states }, false)
        .expect_err("no path has less than 4 bytes")
        .error
}

#[test]
fn a_table_is_made_exactly_if_the_library_takes_it() {
    let mut made = [0, 0];
    let mut random = 1u32;
    for _ in 0..20_000 {
        let mut draw = |below: u32| {
            random = random.wrapping_mul(1_664_525).wrapping_add(1_013_904_223);
            (random >> 8) % below
        };
        let (length, step, highest) = (draw(5), 2 + draw(2), 8 + u32::from(draw(8) == 0));
        let mut ids: Vec<u16> = (0..length).map(|at| (at * 2 + draw(step)) as u16).collect();
        let states: Vec<u8> = (0..length + u32::from(draw(8) == 0))
            .map(|_| draw(highest) as u8)
            .collect();
        ids.rotate_left(if draw(8) == 0 { length.min(1) as usize } else { 0 });
        let table = InterfaceTable::new(&ids[..], &states[..]);
        let expected = match table {
            Ok(_) => StandardRoutingError::MetaTooShort,
            Err(_) => StandardRoutingError::UnsoundTable,
        };
        assert_eq!(table_answer(&ids, &states), expected, "{ids:?} {states:?}");
        made[usize::from(table.is_ok())] += 1;
    }
    assert!(made[0] > 1000 && made[1] > 1000, "{made:?}");
}

#[test]
fn an_unsound_table_is_told_why() {
    let why = |ids: &[u16], states: &[u8]| InterfaceTable::new(ids, states).unwrap_err();
    assert_eq!(why(&[1, 2], &[0]), UnsoundTable::LengthsDiffer { ids: 2, states: 1 });
    assert_eq!(why(&[0; 257], &[0; 257]), UnsoundTable::TooManyEntries { entries: 257 });
    assert_eq!(why(&[1, 3, 3], &[0; 3]), UnsoundTable::NotAscending { entry: 2 });
    assert_eq!(why(&[1, 3], &[7, 8]), UnsoundTable::UnknownState { entry: 1, state: 8 });
    let all: Vec<u16> = (0..256).collect();
    assert_eq!(
        InterfaceTable::new(all, [7; 256]).unwrap().ids().len(),
        InterfaceTable::MAX_ENTRIES
    );
}

#[test]
fn a_checked_table_and_its_slices_are_the_same_to_a_call() {
    let table = InterfaceTable::new([1, 3], [6, 5]).unwrap();
    let slices = Interfaces {
        ids: table.ids(),
        states: table.states(),
    };
    assert_eq!(Interfaces::from(&table), slices);
    let mut path = [1, 0, 0x30, 0];
    let refused = handle_standard_path(&mut path, 3, NOW, &[0; 16], &table, false);
    assert_eq!(
        refused,
        handle_standard_path(&mut path, 3, NOW, &[0; 16], slices, false)
    );
    assert_eq!(
        refused.unwrap_err(),
        Refusal {
            error: StandardRoutingError::DataTooShort,
            scmp: None
        }
    );
}

#[test]
fn empty_slices_are_inputs_like_others() {
    let table = InterfaceTable::default();
    let refusal = Refusal {
        error: StandardRoutingError::MetaTooShort,
        scmp: None,
    };
    assert_eq!(
        handle_standard_path(&mut [], 0, NOW, &[0; 16], &table, false),
        Err(refusal)
    );
    assert_eq!(
        standard_path_ingress(&mut [], 0, NOW, &[0; 16], &table, false),
        Err(refusal)
    );
    assert_eq!(
        standard_path_egress(&mut [], 0, NOW, &[0; 16], &table, false),
        Err(refusal)
    );
    assert_eq!(try_reverse(&mut []), Err(PathReverseError::MetaTooShort));
    assert_eq!(expiration(&[]), Err(HeaderError::MetaTooShort));
    assert_eq!(calculate_segment_index(&[], 0), Err(HeaderError::MetaTooShort));
    assert_eq!(check_journey(&[], &[], NOW, NOW), Err(JourneyError::MetaTooShort));
    assert_eq!(check_journey(&[0; 4], &[], NOW, NOW), Err(JourneyError::UnfitItinerary));
}

/// Two hops in construction direction, timestamp 1000, from interface 1 of the first AS to interface 2 of the second,
/// and their itinerary.
fn journey() -> (Vec<u8>, Vec<u8>) {
    let (first_key, second_key) = ([1; 16], [2; 16]);
    let first = calculate_hop_mac(0x1234, 1000, 0, 0, 1, &first_key);
    let beta = 0x1234 ^ u16::from_be_bytes([first[0], first[1]]);
    let second = calculate_hop_mac(beta, 1000, 0, 2, 0, &second_key);
    let mut path = vec![0, 0, 2 << 4, 0, 1, 0, 0x12, 0x34, 0, 0, 3, 232];
    for (interfaces, mac) in [([0, 0, 0, 1], first), ([0, 2, 0, 0], second)] {
        path.extend([0, 0]);
        path.extend(interfaces);
        path.extend(mac);
    }

    let mut itinerary = vec![0; 4 * 32];
    itinerary[1] = 1;
    itinerary[32..40].copy_from_slice(&[0, 2, 0, 0, 0, 3, 0, 0]);
    itinerary[40..56].copy_from_slice(&first_key);
    itinerary[64..72].copy_from_slice(&[0, 0, 0, 2, 0, 0, 0, 0]);
    itinerary[72..88].copy_from_slice(&second_key);
    itinerary[96..101].copy_from_slice(&[0, 0, 0, 1, 6]);
    (path, itinerary)
}

#[test]
fn a_journey_is_checked() {
    let (path, itinerary) = journey();
    let check =
        |earliest, latest| check_journey(&path, &itinerary, ScionNetworkTime(earliest), ScionNetworkTime(latest));
    assert_eq!(check(1000, 1337), Ok(Verdict::Passed));
    assert!(matches!(check(1000, 1338), Ok(Verdict::NotPassed { .. })));
    assert!(matches!(check(999, 1337), Ok(Verdict::NotPassed { .. })));
    assert_eq!(check(1001, 1000), Err(JourneyError::UnfitItinerary));
    let altered = |at: usize, byte: u8| {
        let mut path = path.clone();
        path[at] = byte;
        check_journey(&path, &itinerary, NOW, NOW)
    };
    assert_eq!(altered(0, 1), Err(JourneyError::NotAtStart));
    assert_eq!(altered(12, 1), Err(JourneyError::AlertSet));
    assert!(matches!(altered(18, path[18] ^ 1), Ok(Verdict::NotPassed { .. })));
}

#[test]
fn a_segment_index_skips_the_hops_of_an_empty_segment_but_not_its_place() {
    let mut path = vec![0, 0, 0x20, 0x02]; // (2,0,2)
    path.resize(4 + 2 * 8 + 4 * 12, 0);
    let at = |index, start, end| Ok(SegmentIndex::At { index, start, end });
    assert_eq!(calculate_segment_index(&path, 0), at(0, true, false));
    assert_eq!(calculate_segment_index(&path, 1), at(0, false, true));
    assert_eq!(calculate_segment_index(&path, 2), at(2, true, false));
    assert_eq!(calculate_segment_index(&path, 3), at(2, false, true));
    assert_eq!(calculate_segment_index(&path, 4), Ok(SegmentIndex::OutOfBounds));
    path.pop();
    assert_eq!(calculate_segment_index(&path, 0), Err(HeaderError::DataTooShort));
}

fn bytes(text: &str) -> Vec<u8> {
    (0..text.len())
        .step_by(2)
        .map(|at| u8::from_str_radix(&text[at..at + 2], 16).unwrap())
        .collect()
}

#[test]
fn the_mac_is_that_of_rfc_4493() {
    let key = bytes("2b7e151628aed2a6abf7158809cf4f3c").try_into().unwrap();
    let message = bytes(
        "6bc1bee22e409f96e93d7e117393172aae2d8a571e03ac9c9eb76fac45af8e51\
         30c81c46a35ce411e5fbc1191a0a52eff69f2445df4f9b17ad2b417be66c3710",
    );
    for (length, mac) in [
        (0, "bb1d6929e95937287fa37d129b756746"),
        (16, "070a16b46b4d4144f79bdd9dd04a287c"),
        (40, "dfa66747de9ae63030ca32611497c827"),
        (64, "51f0bebf7e3b9d92fc49741779363cfe"),
    ] {
        assert_eq!(aes_cmac(&key, &message[..length])[..], bytes(mac));
    }
}

#[test]
fn the_hop_mac_is_the_head_of_the_mac_of_its_input() {
    let key = *b"a forwarding key";
    let input = [0, 0, 1, 2, 3, 4, 5, 6, 0, 7, 8, 9, 10, 11, 0, 0];
    assert_eq!(
        calculate_hop_mac(0x0102, 0x0304_0506, 7, 0x0809, 0x0a0b, &key),
        aes_cmac(&key, &input)[..6]
    );
}

#[test]
fn refusals_read_as_sentences() {
    let wrong_mac = StandardRoutingError::InvalidMacError {
        hop_index: 3,
        expected: [0, 1, 2, 3, 4, 5],
        actual: [255; 6],
    };
    assert_eq!(
        wrong_mac.to_string(),
        "hop 3: the hop field's MAC is ffffffffffff, but the key gives 000102030405"
    );
    let advance = StandardRoutingError::from(AdvanceError::InvalidSegmentIndex { expected: 2, actual: 1 });
    assert_eq!(
        advance.to_string(),
        "the current hop lies in segment 2, but the path header says segment 1"
    );
    let down = ScmpError::ExternalInterfaceDown { interface_id: 7 };
    assert_eq!(down.to_string(), "SCMP external interface down, interface 7");
    let refusal = Refusal {
        error: StandardRoutingError::EgressInterfaceDown { hop_index: 1, if_id: 7 },
        scmp: Some(down),
    };
    assert_eq!(refusal.to_string(), "hop 1: interface 7, to leave by, is down");
    let action = AsRoutingAction::ForwardNextHop { egress_interface_id: 7 };
    assert_eq!(action.to_string(), "the packet leaves by interface 7");
}

#[test]
fn calls_run_on_several_threads() {
    let calls = || {
        (0..1000)
            .map(|message: u32| aes_cmac(&[7; 16], &message.to_be_bytes()))
            .collect::<Vec<_>>()
    };
    let expected = calls();
    let threads: Vec<_> = (0..4).map(|_| std::thread::spawn(calls)).collect();
    for thread in threads {
        assert_eq!(thread.join().unwrap(), expected);
    }
}
