//! The lines of a path text that describe a hop.

use crate::lines::{once, Line};
use crate::mistake::Checked;
use crate::quoting::quoted;

pub struct HopText {
    /// The place of its line, for mistakes.
    pub place: String,
    /// The interfaces in travel direction: in, out.
    pub travel: [u16; 2],
    pub exp_time: u8,
    /// The alerts in travel direction: in, out.
    pub alerts: [bool; 2],
    pub reserved_flags: u8,
    pub mac: Option<[u8; 6]>,
}

/// The six flag bits that have no name.
pub fn reserved_flags(line: &Line<'_>, word: &str) -> Checked<u8> {
    let [flags] = line.hex("reserved_flags", word)?;
    if flags & 3 != 0 {
        return line.wrong(format!(
            "`{word}` sets one of the two lowest bits, which have words of their own (cons_dir and peering; alert)"
        ));
    }
    Ok(flags)
}

const HOP: &str =
    "write `hop in 0 out 1 lasts 6h`, with `exp_time 63` in place of `lasts 6h` if you like, and behind it \
                   what is needed of `alert ingress`, `alert egress`, `reserved_flags 04`, `mac 0123456789ab`";

pub fn hop(line: &Line<'_>) -> Checked<HopText> {
    let (mut into, mut out, mut exp_time, mut mac, mut flags) = (None, None, None, None, None);
    let mut alerts = [None; 2];
    for pair in line.words[1..].chunks(2) {
        let &[name, word] = pair else {
            return line.wrong(format!("{} has nothing behind it: {HOP}", quoted(pair[0])));
        };
        match (name, word) {
            ("in", word) => once(&mut into, line.number_up_to(word, u16::MAX)?, line, "`in`")?,
            ("out", word) => once(&mut out, line.number_up_to(word, u16::MAX)?, line, "`out`")?,
            ("lasts", word) => once(&mut exp_time, exp_time_of(line, word)?, line, "`lasts` or `exp_time`")?,
            ("exp_time", word) => once(
                &mut exp_time,
                line.number_up_to(word, 255)? as u8,
                line,
                "`lasts` or `exp_time`",
            )?,
            ("alert", "ingress") => once(&mut alerts[0], true, line, "`alert ingress`")?,
            ("alert", "egress") => once(&mut alerts[1], true, line, "`alert egress`")?,
            ("reserved_flags", word) => once(&mut flags, reserved_flags(line, word)?, line, "`reserved_flags`")?,
            ("mac", word) => once(&mut mac, line.hex("mac", word)?, line, "`mac`")?,
            ("alert", _) => return line.wrong(format!("{} is no alert: {HOP}", quoted(word))),
            _ => return line.wrong(format!("{} is not known here: {HOP}", quoted(name))),
        }
    }
    let (Some(into), Some(out), Some(exp_time)) = (into, out, exp_time) else {
        let lacks = match (into, out) {
            (None, _) => "in",
            (_, None) => "out",
            _ => "lasts",
        };
        return line.wrong(format!("this hop has no `{lacks}`: {HOP}"));
    };
    Ok(HopText {
        place: line.place(),
        travel: [into, out],
        exp_time,
        alerts: alerts.map(|alert| alert.is_some()),
        reserved_flags: flags.unwrap_or(0),
        mac,
    })
}

/// The least ExpTime that lasts so long. A hop lasts (ExpTime + 1) times 337.5 seconds, a day at most.
fn exp_time_of(line: &Line<'_>, word: &str) -> Checked<u8> {
    let seconds = [("s", 1), ("m", 60), ("h", 3_600)].iter().find_map(|(unit, seconds)| {
        let number = word.strip_suffix(unit)?;
        let is_number = !number.is_empty() && number.bytes().all(|byte| byte.is_ascii_digit());
        number.parse::<u64>().ok().filter(|_| is_number)?.checked_mul(*seconds)
    });
    match seconds.map(|seconds| seconds.saturating_mul(2).div_ceil(675)) {
        Some(units @ 0..=256) => Ok(units.saturating_sub(1) as u8),
        _ => line.wrong(format!(
            "{} is no time that a hop can last: write a number and s, m or h, up to 24h, as `lasts 6h`",
            quoted(word)
        )),
    }
}

#[cfg(test)]
mod tests {
    use super::*;

    #[test]
    fn a_hop_lasts_at_least_as_long_as_asked() {
        let line = Line {
            of: "t",
            number: 1,
            said: "",
            words: vec![],
        };
        for (word, exp_time) in [
            ("0s", 0),
            ("337s", 0),
            ("338s", 1),
            ("675s", 1),
            ("1h", 10),
            ("6h", 63),
            ("360m", 63),
            ("24h", 255),
            ("86400s", 255),
        ] {
            assert_eq!(exp_time_of(&line, word).unwrap(), exp_time, "{word}");
        }
        for word in [
            "",
            "h",
            "6",
            "25h",
            "86401s",
            "-1h",
            "+1h",
            "6 h",
            "99999999999999999999h",
            "18446744073709551615h",
        ] {
            assert!(exp_time_of(&line, word).is_err(), "{word}");
        }
    }
}
