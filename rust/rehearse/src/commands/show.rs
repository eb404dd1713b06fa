//! `rehearse show`: a path header in words and numbers.

use super::read_path;
use crate::answers;
use crate::arguments::{Arguments, Form};
use crate::dates;
use crate::edition;
use crate::files::Files;
use crate::header::{Header, Hop, Info, Segment};
use crate::hex::to_hex;
use crate::hop_words;
use crate::json::Json;
use crate::mistake::Checked;
use crate::report::{counted, Report};
use standard_path::{calculate_segment_index, expiration, Edition};

pub const FORM: Form = Form {
    command: "show",
    places: &["PATH"],
    values: &[edition::OPTION],
    flags: &["--json", "--raw", "--hex"],
};

pub fn run(arguments: &Arguments, files: &Files) -> Checked<Report> {
    let edition = edition::of(arguments)?;
    let path = read_path(arguments, files)?;
    let header = Header(&path);
    let answer = answers::of_header(&path, edition);
    let mut report = match &answer {
        None => whole(header),
        Some(answer) => Report::of("show", answer),
    };
    edition::tell(edition, &mut report);
    if answer.is_some_and(|answer| answer.number == 2) {
        too_short(&path, &mut report);
        return Ok(report);
    }
    meta(header, &mut report);
    peering_hops(edition, header, &mut report);
    let used = header.segments();
    let mut segments: Vec<Json> = used
        .iter()
        .map(|segment| show_segment(header, segment, &mut report))
        .collect();
    for index in (0..header.infos()).filter(|index| used.iter().all(|segment| segment.reached != *index)) {
        segments.push(show_unused(header, index, &mut report));
    }
    report.member("segments", Json::List(segments));
    Ok(report)
}

/// Less than a meta word: there is nothing to show but the bytes.
fn too_short(path: &[u8], report: &mut Report) {
    let bytes = if path.is_empty() { "none".into() } else { to_hex(path) };
    report.line("bytes read", bytes);
    report.member("bytes_read", Json::number(path.len()));
    report.member("bytes_behind", Json::number(0));
}

fn whole(header: Header<'_>) -> Report {
    let behind = header.parts().1.len();
    let text = format!(
        "whole: a header of {}, and {} behind it\n",
        counted(header.size(), "byte"),
        if behind == 0 {
            "none".into()
        } else {
            counted(behind, "byte")
        }
    );
    Report::done("show", "whole", text)
}

fn meta(header: Header<'_>, report: &mut Report) {
    let [first, second, third] = header.lengths();
    let (infos, hops) = (header.infos(), header.hops());
    report.text += "meta word (bytes 0 to 3)\n";
    let (curr_inf, curr_hf, reserved) = (header.curr_inf(), header.curr_hf(), header.reserved());
    report.line("indices", format!("CurrINF {curr_inf}, CurrHF {curr_hf}"));
    if let Ok(segment) = calculate_segment_index(header.0, curr_hf) {
        report.line("current hop", segment.to_string());
    }
    report.line(
        "lengths",
        format!(
            "{first}, {second}, {third}: {}, {}",
            counted(hops, "hop"),
            counted(infos, "info field")
        ),
    );
    report.line("reserved", format!("{reserved} (6 bits)"));
    report.line(
        "ends",
        format!(
            "before byte {} = 4 + 8 x {infos} + 12 x {hops}; {} read",
            header.size(),
            counted(header.0.len(), "byte")
        ),
    );
    let expires = expiration(header.0).ok();
    if let Some(time) = expires.filter(|&time| time != 0) {
        report.line("expires", dates::both(time));
    }
    report.member("curr_inf", Json::number(curr_inf));
    report.member("curr_hf", Json::number(curr_hf));
    report.member("reserved", Json::number(reserved));
    report.member("lengths", Json::List(header.lengths().map(Json::number).into()));
    report.member("infos", Json::number(infos));
    report.member("hops", Json::number(hops));
    report.member("ends_before_byte", Json::number(header.size()));
    report.member("bytes_read", Json::number(header.0.len()));
    report.member("bytes_behind", Json::number(header.parts().1.len()));
    report.member("expiration", expires.map_or(Json::Null, Json::number));
}

/// The hops at a peering link, in the edition that has one.
fn peering_hops(edition: Edition, header: Header<'_>, report: &mut Report) {
    let hops = header.peering_hops(edition);
    if let Some([near, far]) = hops {
        report.line("peering hops", format!("{near} and {far}"));
    }
    let indices = hops.into_iter().flatten().map(Json::number);
    report.member("peering_hops", Json::List(indices.collect()));
}

/// The info field that the step takes for a segment, and its hops.
fn show_segment(header: Header<'_>, segment: &Segment, report: &mut Report) -> Json {
    let &Segment {
        place,
        first_hop,
        hops,
        reached,
        ..
    } = segment;
    let is_there = reached < header.infos();
    let hop_words = match hops {
        1 => format!("hop {first_hop}"),
        _ => format!("hops {first_hop} to {}", first_hop + hops - 1),
    };
    let info_words = match is_there {
        true => info_words(header, reached),
        false => "no info field".into(),
    };
    report.text += &format!("segment {place}: {info_words}, {hop_words}\n");
    if place >= header.infos() {
        report.line(
            "gap",
            format!(
                "an empty segment stands before it: there the step looks for info field {place}, which is not there"
            ),
        );
    }
    let info = header.own_info(reached);
    if is_there {
        show_info(info.as_ref(), report);
    }
    let shown = show_hops(header, segment, info.as_ref(), report);
    segment_json(Some(place), is_there.then_some(reached), info.as_ref(), shown)
}

fn show_hops(header: Header<'_>, segment: &Segment, info: Option<&Info>, report: &mut Report) -> Vec<Json> {
    let mut shown = Vec::new();
    for index in (segment.first_hop..).take(segment.hops) {
        let Some(hop) = header.hop(index) else {
            report.line(
                &format!("hop {index}"),
                "not there: the bytes end before it or inside it",
            );
            break;
        };
        shown.push(show_hop(header, index, info, &hop, report));
    }
    shown
}

/// An info field that the step takes for no segment.
fn show_unused(header: Header<'_>, index: usize, report: &mut Report) -> Json {
    report.text += &format!("{}: of no segment\n", info_words(header, index));
    let info = header.info(index);
    show_info(info.as_ref(), report);
    segment_json(None, Some(index), info.as_ref(), Vec::new())
}

fn info_words(header: Header<'_>, index: usize) -> String {
    let at = header.info_at(index);
    format!("info field {index} (bytes {at} to {})", at + 7)
}

fn show_info(info: Option<&Info>, report: &mut Report) {
    let Some(info) = info else {
        report.text += "    not there: the bytes end before it\n";
        return;
    };
    let direction = match info.cons_dir() {
        true => "set: travelled as constructed",
        false => "clear: travelled against construction",
    };
    let peering = match info.peering() {
        true => "set: a peering segment",
        false => "clear: no peering segment",
    };
    report.line("C", direction);
    report.line("P", peering);
    report.line("SegID", format!("{:04x}", info.seg_id()));
    report.line("timestamp", dates::both(info.timestamp()));
    report.line(
        "reserved",
        format!("flag bits {:02x}, byte {:02x}", info.reserved_flags(), info.reserved()),
    );
}

fn segment_json(place: Option<usize>, index: Option<usize>, info: Option<&Info>, hops: Vec<Json>) -> Json {
    let of = |value: fn(&Info) -> Json| info.map_or(Json::Null, value);
    Json::Object(vec![
        ("place", place.map_or(Json::Null, Json::number)),
        ("info_field", index.map_or(Json::Null, Json::number)),
        ("cons_dir", of(|info| Json::Flag(info.cons_dir()))),
        ("peering", of(|info| Json::Flag(info.peering()))),
        ("seg_id", of(|info| Json::text(format!("{:04x}", info.seg_id())))),
        ("timestamp", of(|info| Json::number(info.timestamp()))),
        ("timestamp_date", of(|info| Json::text(dates::date(info.timestamp())))),
        (
            "reserved_flags",
            of(|info| Json::text(format!("{:02x}", info.reserved_flags()))),
        ),
        ("reserved", of(|info| Json::text(format!("{:02x}", info.reserved())))),
        ("hops", Json::List(hops)),
    ])
}

fn show_hop(header: Header<'_>, index: usize, info: Option<&Info>, hop: &Hop, report: &mut Report) -> Json {
    report.line(&format!("hop {index}"), hop_words::words(info, hop));
    let (mac, flags, at) = (to_hex(&hop.mac()), hop.reserved_flags(), header.hop_at(index));
    report.line(
        "",
        format!("MAC {mac}; reserved flag bits {flags:02x}; bytes {at} to {}", at + 11),
    );
    hop_words::json(index, info, hop)
}
