//! Times in UTC, as ISO 8601 writes them.

use std::fmt;

/// A moment since 1970 began.
#[derive(Clone, Copy, Debug, PartialEq, Eq, PartialOrd, Ord)]
pub struct Time {
    /// Whole seconds.
    pub seconds: u64,
    /// And nanoseconds, below a second.
    pub nanoseconds: u64,
}

/// What [`Time::parse`] takes, for messages.
pub const FORMS: &str = "YYYY-MM-DD[THH:MM[:SS[.FRACTION]]][Z], YYYYMMDD[HH[MM[SS]]] or @SECONDS";

const DAY: u64 = 86_400;

/// Years, and the days in them, after which the calendar repeats itself.
const CYCLE_YEARS: u64 = 400;
const CYCLE_DAYS: u64 = 146_097;

/// Days of a year before each month, in a year that is no leap year.
const BEFORE: [u64; 12] = [0, 31, 59, 90, 120, 151, 181, 212, 243, 273, 304, 334];

impl Time {
    /// Reads a time in one of [`FORMS`]. Without `Z` it is UTC as well.
    pub fn parse(text: &str) -> Option<Time> {
        if let Some(text) = text.strip_prefix('@') {
            let (seconds, nanoseconds) = with_fraction(text)?;
            return Some(Time {
                seconds: number(seconds)?,
                nanoseconds,
            });
        }
        let text = text.strip_suffix('Z').unwrap_or(text);
        let (parts, nanoseconds) = if text.contains('-') {
            separated(text)?
        } else {
            (joined(text)?, 0)
        };
        let seconds = seconds_of(parts)?;
        Some(Time {
            seconds,
            nanoseconds,
        })
    }
}

impl fmt::Display for Time {
    /// With nine digits below a second. A year over 9,999 has a sign, as
    /// ISO 8601 asks for.
    fn fmt(&self, f: &mut fmt::Formatter<'_>) -> fmt::Result {
        let (year, month, day) = date_of(self.seconds / DAY);
        let second = self.seconds % DAY;
        if year > 9_999 {
            f.write_str("+")?;
        }
        write!(
            f,
            "{year:04}-{month:02}-{day:02}T{:02}:{:02}:{:02}.{:09}Z",
            second / 3_600,
            second / 60 % 60,
            second % 60,
            self.nanoseconds
        )
    }
}

const fn is_leap(year: u64) -> bool {
    year.is_multiple_of(4) && (!year.is_multiple_of(100) || year.is_multiple_of(400))
}

const fn days_in(year: u64) -> u64 {
    365 + is_leap(year) as u64
}

/// Days of a year before a month, counted from 1.
const fn days_before(year: u64, month: u64) -> u64 {
    BEFORE[month as usize - 1] + (month > 2 && is_leap(year)) as u64
}

/// Year, month and day, the last two from 1, of a day counted from 0.
fn date_of(day: u64) -> (u64, u64, u64) {
    let mut year = 1970 + day / CYCLE_DAYS * CYCLE_YEARS;
    let mut day = day % CYCLE_DAYS;
    while day >= days_in(year) {
        day -= days_in(year);
        year += 1;
    }
    let mut month = 12;
    while days_before(year, month) > day {
        month -= 1;
    }
    (year, month, day - days_before(year, month) + 1)
}

/// The seconds since 1970 of year, month, day, hour, minute and second, if
/// there is such a time.
fn seconds_of([year, month, day, hour, minute, second]: [u64; 6]) -> Option<u64> {
    let good = year >= 1970 && (1..=12).contains(&month) && hour < 24 && minute < 60 && second < 60;
    if !good {
        return None;
    }
    let next = match month {
        12 => days_in(year),
        _ => days_before(year, month + 1),
    };
    let in_year = days_before(year, month) + day.checked_sub(1)?;
    if in_year >= next {
        return None;
    }
    let cycles = (year - 1970) / CYCLE_YEARS;
    let first = 1970 + cycles * CYCLE_YEARS;
    let days = (first..year).map(days_in).sum::<u64>() + in_year;
    let days = cycles.checked_mul(CYCLE_DAYS)?.checked_add(days)?;
    let in_day = hour * 3_600 + minute * 60 + second;
    days.checked_mul(DAY)?.checked_add(in_day)
}

/// `YYYY-MM-DD`, and behind a `T` or a space `HH:MM`, `HH:MM:SS` or that
/// with a fraction. A year of more digits has a `+` before it.
fn separated(text: &str) -> Option<([u64; 6], u64)> {
    let (date, clock) = match text.split_once(['T', ' ']) {
        Some((date, clock)) => (date, clock),
        None => (text, "00:00"),
    };
    let mut dates = date.splitn(3, '-');
    let year = dates.next()?;
    let year = match year.strip_prefix('+') {
        Some(long) if long.len() > 4 => number(long)?,
        Some(_) => return None,
        None => digits(year, 4)?,
    };
    let (month, day) = (digits(dates.next()?, 2)?, digits(dates.next()?, 2)?);
    let (clock, nanoseconds) = with_fraction(clock)?;
    let mut clocks = clock.splitn(3, ':');
    let (hour, minute) = (digits(clocks.next()?, 2)?, digits(clocks.next()?, 2)?);
    let second = match clocks.next() {
        Some(second) => digits(second, 2)?,
        // A fraction stands behind seconds only.
        None if !text.contains('.') => 0,
        None => return None,
    };
    Some(([year, month, day, hour, minute, second], nanoseconds))
}

/// `YYYYMMDD` and two digits each for hour, minute and second, as
/// auditreduce takes them.
fn joined(text: &str) -> Option<[u64; 6]> {
    let mut parts = [0; 6];
    let mut rest = text;
    for (i, part) in parts.iter_mut().enumerate() {
        let width = if i == 0 { 4 } else { 2 };
        if i > 2 && rest.is_empty() {
            break;
        }
        let (first, behind) = rest.split_at_checked(width)?;
        *part = digits(first, width)?;
        rest = behind;
    }
    rest.is_empty().then_some(parts)
}

/// What stands before a point, and the digits behind it as nanoseconds.
fn with_fraction(text: &str) -> Option<(&str, u64)> {
    let Some((whole, fraction)) = text.split_once('.') else {
        return Some((text, 0));
    };
    if fraction.is_empty() || fraction.len() > 9 {
        return None;
    }
    let scale = 10_u64.pow(9 - fraction.len() as u32);
    Some((whole, number(fraction)? * scale))
}

fn digits(text: &str, width: usize) -> Option<u64> {
    (text.len() == width).then(|| number(text))?
}

fn number(text: &str) -> Option<u64> {
    let digits = !text.is_empty() && text.bytes().all(|byte| byte.is_ascii_digit());
    digits.then(|| text.parse().ok())?
}

#[cfg(test)]
mod tests {
    use super::*;

    fn at(seconds: u64, nanoseconds: u64) -> Time {
        Time {
            seconds,
            nanoseconds,
        }
    }

    #[test]
    fn known_times() {
        for (time, text) in [
            (at(0, 0), "1970-01-01T00:00:00.000000000Z"),
            (at(68_255_999, 1), "1972-02-29T23:59:59.000000001Z"),
            (at(951_782_400, 0), "2000-02-29T00:00:00.000000000Z"),
            (
                at(1_763_200_000, 999_999_999),
                "2025-11-15T09:46:40.999999999Z",
            ),
            (at(4_107_542_400, 0), "2100-03-01T00:00:00.000000000Z"),
            (at(u64::from(u32::MAX), 0), "2106-02-07T06:28:15.000000000Z"),
            (at(253_402_300_799, 0), "9999-12-31T23:59:59.000000000Z"),
            (at(253_402_300_800, 0), "+10000-01-01T00:00:00.000000000Z"),
            (at(u64::MAX, 0), "+584554051223-11-09T07:00:15.000000000Z"),
        ] {
            assert_eq!(time.to_string(), text);
        }
    }

    #[test]
    fn all_times_read_back() {
        let mut seconds = u64::MAX;
        while seconds > 0 {
            for seconds in [seconds, seconds - 1, seconds / 86_400 * 86_400] {
                let time = at(seconds, seconds % 1_000_000_000);
                assert_eq!(Time::parse(&time.to_string()), Some(time));
            }
            seconds -= 1 + seconds / 7;
        }
    }

    #[test]
    fn each_day_reads_back() {
        let mut last = String::new();
        for day in (0..2_932_897).step_by(13) {
            let time = at(day * DAY + day % DAY, day % 1_000_000_000);
            let text = time.to_string();
            assert_eq!(Time::parse(&text), Some(time), "{text}");
            assert!(last < text, "{last} is not before {text}");
            last = text;
        }
    }

    #[test]
    fn forms_that_are_taken() {
        let noon = Some(at(1_763_208_000, 0));
        for text in [
            "2025-11-15T12:00",
            "2025-11-15T12:00Z",
            "2025-11-15 12:00:00",
            "2025-11-15T12:00:00.000Z",
            "2025111512",
            "202511151200",
            "20251115120000",
            "@1763208000",
            "@1763208000.0",
        ] {
            assert_eq!(Time::parse(text), noon, "{text}");
        }
        assert_eq!(Time::parse("2025-11-15"), Some(at(1_763_164_800, 0)));
        assert_eq!(Time::parse("20251115"), Some(at(1_763_164_800, 0)));
        let fraction = Some(at(1_763_208_000, 120_000_000));
        assert_eq!(Time::parse("2025-11-15T12:00:00.12"), fraction);
        assert_eq!(Time::parse("@18446744073709551615"), Some(at(u64::MAX, 0)));
    }

    #[test]
    fn forms_that_are_not() {
        for text in [
            "",
            "@",
            "@-1",
            "@18446744073709551616",
            "noon",
            "1763208000",
            "2025-11",
            "2025-11-31",
            "2025-02-29",
            "2025-00-01",
            "2025-13-01",
            "2025-11-00",
            "1969-12-31",
            "2025-11-15T",
            "2025-11-15T12",
            "2025-11-15T24:00",
            "2025-11-15T12:60",
            "2025-11-15T12:00:60",
            "2025-11-15T12:00.5",
            "2025-11-15T12:00:00.",
            "2025-11-15T12:00:00.1234567890",
            "2025-11-15T12:00:00+02:00",
            "2025-+1-15",
            "+2025-11-15",
            "+0002025-11-32",
            "+584554051223-11-09T07:00:16",
            "+99999999999999999999-01-01",
            "2025-11-15ZZ",
            "202511",
            "2025111",
            "202511151",
            "20251115120000 ",
            "\u{ff12}025-11-15",
        ] {
            assert_eq!(Time::parse(text), None, "{text}");
        }
    }
}
