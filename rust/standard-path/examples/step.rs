//! A path of three hops through its middle AS, then turned around: c/example.c from Rust.

use standard_path::{
    calculate_hop_mac, expiration, handle_standard_path, try_reverse, ForwardingKey, InterfaceTable, ScionNetworkTime,
    UnsoundTable,
};

/// One segment in construction direction, timestamp 1000, at its second hop; MACs under one key.
fn make_path(key: &ForwardingKey) -> Vec<u8> {
    let mut segment_id: u16 = 0x1234;
    let mut info_segment_id = segment_id;
    let mut hops = Vec::new();
    for (index, (cons_ingress, cons_egress)) in [(0u16, 1u16), (3, 1), (3, 0)].into_iter().enumerate() {
        if index == 1 {
            info_segment_id = segment_id;
        }
        let mac = calculate_hop_mac(segment_id, 1000, 0, cons_ingress, cons_egress, key);
        hops.extend([0, 0]);
        hops.extend(cons_ingress.to_be_bytes());
        hops.extend(cons_egress.to_be_bytes());
        hops.extend(mac);
        segment_id ^= u16::from_be_bytes([mac[0], mac[1]]);
    }
    let mut path = vec![1, 0, 3 << 4, 0, 1, 0];
    path.extend(info_segment_id.to_be_bytes());
    path.extend(1000u32.to_be_bytes());
    path.extend(hops);
    path
}

fn main() -> Result<(), UnsoundTable> {
    let key = *b"a forwarding key";
    // 1 to a child, 3 to a parent, both up.
    let table = InterfaceTable::new([1, 3], [4 + 2, 4 + 1])?;

    for (label, secs) in [("in time", 1337), ("a second late", 1338)] {
        let now = ScionNetworkTime::from_timestamp_secs(secs);
        match handle_standard_path(&mut make_path(&key), 3, now, &key, &table, false) {
            Ok(action) => println!("{label}: {action}"),
            Err(refusal) => {
                println!("{label}: refused ({}), {refusal}", refusal.number());
                if let Some(scmp) = refusal.to_scmp_error() {
                    println!("  {scmp}");
                }
            }
        }
    }

    let mut path = make_path(&key);
    println!("expiration: {:?}", expiration(&path));
    println!("reversed: {:?}", try_reverse(&mut path));
    if let Err(error) = try_reverse(&mut path[..47]) {
        println!("cut short: {error}");
    }
    Ok(())
}
