//! A hop of a header in words and as JSON.

use crate::dates::{both, date};
use crate::header::{Hop, Info};
use crate::hex::to_hex;
use crate::json::Json;

/// Interfaces in the direction of travel, the moment that it ends, alerts; without an info field as they are written.
pub fn words(info: Option<&Info>, hop: &Hop) -> String {
    let cons_dir = info.is_none_or(Info::cons_dir);
    let ([into, out], exp_time) = (hop.travel(cons_dir), hop.exp_time());
    let alerts = match hop.alerts(cons_dir) {
        [false, false] => "no alert",
        [true, false] => "ingress alert",
        [false, true] => "egress alert",
        [true, true] => "ingress and egress alert",
    };
    match info.and_then(|info| hop.ends(info)) {
        Some(ends) => format!(
            "in {into}, out {out}; ends {} (ExpTime {exp_time}); {alerts}",
            date(ends)
        ),
        None => format!("ConsIngress {into}, ConsEgress {out}; ExpTime {exp_time}; {alerts}"),
    }
}

/// What its segment says of it.
pub fn segment_words(info: &Info) -> String {
    let direction = if info.cons_dir() { "set" } else { "clear" };
    format!("of a segment with timestamp {}, C {direction}", both(info.timestamp()))
}

pub fn json(index: usize, info: Option<&Info>, hop: &Hop) -> Json {
    let [into, out] = info.map_or([None; 2], |info| hop.travel(info.cons_dir()).map(Some));
    let alerts = info.map(|info| hop.alerts(info.cons_dir()).map(Json::Flag));
    let [ingress_alert, egress_alert] = alerts.unwrap_or([Json::Null, Json::Null]);
    let number = |number: Option<u32>| number.map_or(Json::Null, Json::number);
    let day = |time: Option<u32>| time.map_or(Json::Null, |time| Json::text(date(time)));
    let (ends, timestamp) = (info.and_then(|info| hop.ends(info)), info.map(Info::timestamp));
    Json::Object(vec![
        ("index", Json::number(index)),
        ("in", number(into.map(u32::from))),
        ("out", number(out.map(u32::from))),
        ("exp_time", Json::number(hop.exp_time())),
        ("ends", number(ends)),
        ("ends_date", day(ends)),
        ("timestamp", number(timestamp)),
        ("timestamp_date", day(timestamp)),
        ("ingress_alert", ingress_alert),
        ("egress_alert", egress_alert),
        ("reserved_flags", Json::text(format!("{:02x}", hop.reserved_flags()))),
        ("mac", Json::text(to_hex(&hop.mac()))),
    ])
}
