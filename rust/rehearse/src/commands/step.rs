//! `rehearse step`, `rehearse ingress` and `rehearse egress`: what one station does with a packet.

use super::station::Named;
use super::{left_file, read_path, reading, spelling, write_left, PATH};
use crate::answers::{self, Answer};
use crate::arguments::{Arguments, Form};
use crate::dates;
use crate::edition;
use crate::files::Files;
use crate::json::Json;
use crate::mistake::Checked;
use crate::report::Report;
use crate::sentences::Call;
use standard_path::{Edition, ForwardingKey, Interfaces, ScionNetworkTime};

const fn form(command: &'static str) -> Form {
    Form {
        command,
        places: &["PATH"],
        values: &[
            (
                "--table",
                "the station's interfaces: a file, or as 1:child:up,3:parent:up; --plan and --station stand for it and --key",
            ),
            ("--key", "the station's key: 32 hex digits, or @ and a file"),
            ("--plan", "a plan, whose station is taken in place of --table and --key"),
            ("--station", "the station's place in the plan, counted from 0"),
            ("--interface", "the interface's number"),
            ("--now", "the reading of the clock: seconds or a date"),
            edition::OPTION,
            ("--write", "a file to write the path to"),
        ],
        flags: &["--ignore-macs", "--json", "--raw", "--hex"],
    }
}

pub const STEP: Form = form("step");
pub const INGRESS: Form = form("ingress");
pub const EGRESS: Form = form("egress");

/// What a station is given beside the path.
struct At<'a> {
    edition: Edition,
    interface: u16,
    /// The reading of its clock.
    now: u32,
    key: ForwardingKey,
    table: Interfaces<'a>,
    ignore_macs: bool,
}

impl At<'_> {
    fn now(&self) -> ScionNetworkTime {
        ScionNetworkTime::from_timestamp_secs(self.now)
    }
}

pub fn whole(arguments: &Arguments, files: &Files) -> Checked<Report> {
    call(Call::Step, &STEP, arguments, files, |path, at| {
        let (now, key) = (at.now(), &at.key);
        let answer = at
            .edition
            .handle_standard_path(path, at.interface, now, key, at.table, at.ignore_macs);
        answers::of_step(answer)
    })
}

pub fn ingress(arguments: &Arguments, files: &Files) -> Checked<Report> {
    call(Call::Ingress, &INGRESS, arguments, files, |path, at| {
        let (now, key) = (at.now(), &at.key);
        let answer = at
            .edition
            .standard_path_ingress(path, at.interface, now, key, at.table, at.ignore_macs);
        answers::of_ingress(answer)
    })
}

pub fn egress(arguments: &Arguments, files: &Files) -> Checked<Report> {
    call(Call::Egress, &EGRESS, arguments, files, |path, at| {
        let (now, key) = (at.now(), &at.key);
        let answer = at
            .edition
            .standard_path_egress(path, at.interface, now, key, at.table, at.ignore_macs);
        answers::of_step(answer)
    })
}

fn call(
    call: Call,
    form: &Form,
    arguments: &Arguments,
    files: &Files,
    library: impl Fn(&mut [u8], &At<'_>) -> Answer,
) -> Checked<Report> {
    arguments.file(0, PATH)?;
    let named = Named::in_call(arguments)?;
    // By which interface the packet leaves stands in no plan.
    let interface = match (&named, arguments.value("--interface")) {
        (Named::InPlan { .. }, None) if call != Call::Egress => None,
        _ => Some(arguments.number("--interface", "interface number")?),
    };
    let mut notes = Vec::new();
    let now = reading(arguments, "--now", &mut notes)?;
    let file = left_file(arguments)?;
    let edition = edition::of(arguments)?;

    let station = named.read(files, spelling(arguments)?, &mut notes)?;
    let before = read_path(arguments, files)?;
    let (ids, states): (Vec<u16>, Vec<u8>) = station.interfaces.into_iter().unzip();
    let at = At {
        edition,
        interface: interface.unwrap_or(station.arrival),
        now,
        key: station.key,
        table: Interfaces {
            ids: &ids,
            states: &states,
        },
        ignore_macs: arguments.flag("--ignore-macs"),
    };
    let mut path = before.clone();
    let answer = library(&mut path, &at).of_call(call, edition, &before, &path);
    let mut report = Report::of(form.command, &answer);
    report.line("now", dates::both(at.now));
    report.member("now", Json::number(at.now));
    edition::tell(edition, &mut report);
    report.member("named_hops", answer.hops_json());
    report.notes = notes;
    report.path_left(&before, &path);
    write_left(file, files, [&before, &path], &mut report)?;
    Ok(report)
}
