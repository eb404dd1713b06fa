//! Times as seconds since 1970 and as dates, all in UTC.

use crate::mistake::{mistake, Checked};
use crate::quoting::quoted_time;

const DAY: u64 = 86_400;

/// The days from 1970-01-01 to a day of the Gregorian calendar. A year begins in March here, so that a leap day is its
/// last, and 400 years have 146,097 days.
fn days_from_civil(year: u64, month: u64, day: u64) -> u64 {
    let from_march = (month + 9) % 12;
    let year = if month <= 2 { year - 1 } else { year };
    let (era, year_of_era) = (year / 400, year % 400);
    let day_of_year = (153 * from_march + 2) / 5 + day - 1;
    let day_of_era = year_of_era * 365 + year_of_era / 4 - year_of_era / 100 + day_of_year;
    era * 146_097 + day_of_era - 719_468
}

/// The year, month and day that lie so many days behind 1970-01-01.
fn civil_from_days(days: u64) -> (u64, u64, u64) {
    let days = days + 719_468;
    let (era, day_of_era) = (days / 146_097, days % 146_097);
    let year_of_era = (day_of_era - day_of_era / 1_460 + day_of_era / 36_524 - day_of_era / 146_096) / 365;
    let day_of_year = day_of_era - (365 * year_of_era + year_of_era / 4 - year_of_era / 100);
    let from_march = (5 * day_of_year + 2) / 153;
    let day = day_of_year - (153 * from_march + 2) / 5 + 1;
    let month = if from_march < 10 {
        from_march + 3
    } else {
        from_march - 9
    };
    (era * 400 + year_of_era + u64::from(month <= 2), month, day)
}

/// A time as a date, `2026-11-15T06:00:00Z`.
pub fn date(seconds: u32) -> String {
    let seconds = u64::from(seconds);
    let (year, month, day) = civil_from_days(seconds / DAY);
    let (hour, minute, second) = (seconds % DAY / 3_600, seconds % 3_600 / 60, seconds % 60);
    format!("{year:04}-{month:02}-{day:02}T{hour:02}:{minute:02}:{second:02}Z")
}

/// A time as a date and as its number.
pub fn both(seconds: u32) -> String {
    format!("{} ({seconds})", date(seconds))
}

/// A time as people write it: seconds since 1970, or a date in UTC. `of` is what it is the time of.
pub fn time(text: &str, of: &str) -> Checked<u32> {
    let text = text.trim();
    if !text.is_empty() && text.bytes().all(|byte| byte.is_ascii_digit()) {
        return text.parse().or_else(|_| {
            mistake(format!(
                "{of}: {} is more than 4294967295, the last second that a header can hold",
                quoted_time(text)
            ))
        });
    }
    let seconds = match seconds_of_date(text) {
        Ok(seconds) => seconds,
        Err(why) => {
            return mistake(format!(
                "{of}: {} is no time{why}: write seconds since 1970, or a date in UTC as 2026-11-15T06:00:00Z, \
                 2026-11-15 06:00:00 or 2026-11-15",
                quoted_time(text)
            ))
        }
    };
    u32::try_from(seconds).or_else(|_| {
        mistake(format!(
            "{of}: {} is later than 2106-02-07T06:28:15Z, the last second that a header can hold",
            quoted_time(text)
        ))
    })
}

/// A note on a time that is a small number, which may have been meant otherwise.
pub fn note(text: &str, of: &str) -> Option<String> {
    let seconds = text
        .trim()
        .parse()
        .ok()
        .filter(|&seconds: &u32| seconds < 100_000_000)?;
    Some(format!(
        "{of}: {seconds} is {}: a number is seconds since 1970",
        date(seconds)
    ))
}

/// The seconds, or why a text that has the look of a date is none.
fn seconds_of_date(text: &str) -> Result<u64, &'static str> {
    let (date, clock) = match text.split_once(['T', 't', ' ']) {
        Some((date, clock)) => (date, without_zone(clock)),
        None => (text, "00:00:00"),
    };
    let date = numbers(date, '-', &[4, 2, 2]).ok_or("")?;
    let (year, month, day) = (date[0], date[1], date[2]);
    if clock.contains(['+', '-']) || clock.ends_with(|letter: char| letter.is_ascii_alphabetic()) {
        return Err(" (only UTC is taken, without another zone)");
    }
    let clock = numbers(clock, ':', &[2, 2, 2]).or_else(|| numbers(clock, ':', &[2, 2]));
    let clock = clock.ok_or(" (the time of day is written 06:00:00 or 06:00)")?;
    let (hour, minute, second) = (clock[0], clock[1], clock.get(2).copied().unwrap_or(0));
    if year < 1970 {
        return Err(" (it is before 1970)");
    }
    if !(1..=12).contains(&month) || !(1..=days_of_month(year, month)).contains(&day) {
        return Err(" (there is no such day)");
    }
    if hour > 23 || minute > 59 || second > 59 {
        return Err(" (there is no such time of day)");
    }
    Ok(days_from_civil(year, month, day) * DAY + hour * 3_600 + minute * 60 + second)
}

/// The time of day without the sign for UTC.
fn without_zone(clock: &str) -> &str {
    let without = clock.strip_suffix(['Z', 'z']).or_else(|| clock.strip_suffix("+00:00"));
    without.unwrap_or(clock)
}

fn days_of_month(year: u64, month: u64) -> u64 {
    let since = |years: u64| year % years;
    match month {
        2 if since(4) == 0 && (since(100) != 0 || since(400) == 0) => 29,
        2 => 28,
        4 | 6 | 9 | 11 => 30,
        _ => 31,
    }
}

/// Numbers of so many digits each, between a sign.
fn numbers(text: &str, between: char, digits: &[usize]) -> Option<Vec<u64>> {
    let parts: Vec<&str> = text.split(between).collect();
    let fits = |(part, &count): (&&str, &usize)| part.len() == count && part.bytes().all(|byte| byte.is_ascii_digit());
    if parts.len() != digits.len() || !parts.iter().zip(digits).all(fits) {
        return None;
    }
    parts.iter().map(|part| part.parse().ok()).collect()
}

#[cfg(test)]
mod tests {
    use super::*;

    /// The calendar written out, from 1970 to the end of 2106: a day after the other.
    #[test]
    fn every_day_of_the_32_bits_is_its_date_and_back() {
        let mut day = 0;
        for year in 1970..=2106 {
            for month in 1..=12 {
                for of_month in 1..=days_of_month(year, month) {
                    assert_eq!(civil_from_days(day), (year, month, of_month));
                    assert_eq!(days_from_civil(year, month, of_month), day);
                    day += 1;
                }
            }
        }
        assert!((day - 1) * DAY > u64::from(u32::MAX));
    }

    #[test]
    fn a_time_is_its_date_and_back() {
        let seconds = (0..=u32::MAX)
            .step_by(65_521)
            .chain([0, 1, 59, 86_399, 86_400, u32::MAX]);
        for seconds in seconds {
            assert_eq!(time(&date(seconds), "t").unwrap(), seconds);
            assert_eq!(time(&seconds.to_string(), "t").unwrap(), seconds);
        }
    }

    #[test]
    fn known_dates() {
        for (text, seconds) in [
            ("1970-01-01", 0),
            ("2000-02-29T12:00:00Z", 951_825_600),
            ("2026-11-15 06:00:00", 1_794_722_400),
            ("2026-11-15T06:00Z", 1_794_722_400),
            ("2026-11-15t06:00:00z", 1_794_722_400),
            ("2026-11-15T06:00:00+00:00", 1_794_722_400),
            ("2038-01-19T03:14:08Z", 2_147_483_648),
            ("2106-02-07T06:28:15Z", u32::MAX),
        ] {
            assert_eq!(time(text, "t").unwrap(), seconds, "{text}");
        }
        assert_eq!(date(u32::MAX), "2106-02-07T06:28:15Z");
    }

    #[test]
    fn what_is_no_time_is_a_mistake() {
        for text in [
            "",
            "now",
            "-1",
            "+1",
            "4294967296",
            "99999999999999999999999",
            "2106-02-07T06:28:16Z",
            "1969-12-31",
            "2026-02-29",
            "2100-02-29",
            "2026-13-01",
            "2026-00-01",
            "2026-11-31",
            "2026-11-15T24:00:00Z",
            "2026-11-15T06:60:00Z",
            "2026-11-15T06:00:60Z",
            "2026-11-15T",
            "26-11-15",
            "2026-11-15T06:00:00+01:00",
            "2026-11-1é",
        ] {
            assert!(time(text, "t").is_err(), "{text}");
        }
        for (text, why) in [
            ("1969-12-31", "before 1970"),
            ("2026-02-30", "no such day"),
            ("2026-13-01", "no such day"),
            ("2106-02-07T06:28:16Z", "later than 2106-02-07T06:28:15Z"),
            ("2026-11-15T24:00:00Z", "no such time of day"),
            ("2026-11-15T06:00:00+01:00", "only UTC"),
            ("2026-11-15 06:00 CET", "only UTC"),
            ("2026-11-15T6:00", "written 06:00:00 or 06:00"),
        ] {
            let said = time(text, "t").unwrap_err().0;
            assert!(said.contains(why), "{said}");
        }
    }

    #[test]
    fn a_small_number_is_noted() {
        assert_eq!(
            note("2026", "--now").unwrap(),
            "--now: 2026 is 1970-01-01T00:33:46Z: a number is seconds since 1970"
        );
        assert!(note("99999999", "t").is_some());
        for text in ["100000000", "2026-11-15", "x", ""] {
            assert!(note(text, "t").is_none(), "{text}");
        }
    }
}
