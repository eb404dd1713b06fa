//! A path header back in its text form.

use crate::dates::date;
use crate::header::{Header, Hop, Info};
use crate::hex::to_hex;

/// The text form of a whole header, its MACs as they are: signing it gives the same bytes.
pub fn to_text(bytes: &[u8]) -> String {
    let header = Header(bytes);
    let (curr_inf, curr_hf, reserved) = (header.curr_inf(), header.curr_hf(), header.reserved());
    let mut text = format!("path\n    curr_inf {curr_inf}\n    curr_hf {curr_hf}\n");
    if reserved != 0 {
        text += &format!("    reserved {reserved}\n");
    }
    let mut place = 0;
    for segment in header.segments() {
        text += &"segment none\n".repeat(segment.place - place);
        place = segment.place + 1;
        let Some(info) = header.info(segment.info) else { break };
        text += &info_text(&info);
        let hops = (segment.first_hop..).take(segment.hops);
        for hop in hops.map_while(|index| header.hop(index)) {
            text += &hop_text(&info, &hop);
        }
    }
    for line in header.parts().1.chunks(32) {
        text += &format!("behind {}\n", to_hex(line));
    }
    text
}

fn info_text(info: &Info) -> String {
    let yes = |flag: bool| if flag { "yes" } else { "no" };
    let (cons_dir, peering) = (yes(info.cons_dir()), yes(info.peering()));
    let mut text = format!("segment\n    cons_dir {cons_dir}\n    peering {peering}\n");
    for (name, byte) in [("reserved_flags", info.reserved_flags()), ("reserved", info.reserved())] {
        if byte != 0 {
            text += &format!("    {name} {byte:02x}\n");
        }
    }
    let (seg_id, timestamp) = (info.seg_id(), date(info.timestamp()));
    text + &format!("    seg_id {seg_id:04x}\n    timestamp {timestamp}\n")
}

fn hop_text(info: &Info, hop: &Hop) -> String {
    let [into, out] = hop.travel(info.cons_dir());
    let mut text = format!("    hop in {into} out {out} exp_time {}", hop.exp_time());
    for (name, is_set) in ["ingress", "egress"].into_iter().zip(hop.alerts(info.cons_dir())) {
        if is_set {
            text += &format!(" alert {name}");
        }
    }
    if hop.reserved_flags() != 0 {
        text += &format!(" reserved_flags {:02x}", hop.reserved_flags());
    }
    text + &format!(" mac {}\n", to_hex(&hop.mac()))
}
