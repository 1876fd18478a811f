//! The time of day, as text.
use std::time::{Duration, SystemTime, UNIX_EPOCH};

fn since_1970() -> Duration {
    SystemTime::now().duration_since(UNIX_EPOCH).unwrap_or_default()
}

/// The day's number, in UTC.
pub fn day() -> u64 {
    since_1970().as_secs() / 86_400
}

/// RFC 3339, in UTC, to milliseconds.
pub fn now() -> String {
    text(since_1970())
}

/// A day's number becomes a date as in Howard Hinnant's civil_from_days: eras of 400 years that begin with a March.
fn text(since: Duration) -> String {
    let (secs, days) = (since.as_secs() % 86_400, since.as_secs() / 86_400 + 719_468);
    let (era, doe) = (days / 146_097, days % 146_097);
    let yoe = (doe - doe / 1_460 + doe / 36_524 - doe / 146_096) / 365;
    let doy = doe - (365 * yoe + yoe / 4 - yoe / 100);
    let mp = (5 * doy + 2) / 153;
    let (day, month) = (doy - (153 * mp + 2) / 5 + 1, if mp < 10 { mp + 3 } else { mp - 9 });
    let year = yoe + era * 400 + u64::from(month <= 2);
    let (h, m, s, ms) = (secs / 3_600, secs / 60 % 60, secs % 60, since.subsec_millis());
    format!("{year:04}-{month:02}-{day:02}T{h:02}:{m:02}:{s:02}.{ms:03}Z")
}

#[cfg(test)]
mod tests {
    use super::*;

    #[test]
    fn dates() {
        let rows = [
            (0, "1970-01-01T00:00:00.000Z"),
            (951_782_399, "2000-02-28T23:59:59.000Z"),
            (951_782_400, "2000-02-29T00:00:00.000Z"),
            (951_868_800, "2000-03-01T00:00:00.000Z"),
            (1_795_785_146, "2026-11-27T13:12:26.000Z"),
            (4_107_542_400, "2100-03-01T00:00:00.000Z"),
        ];
        for (seconds, wanted) in rows {
            assert_eq!(text(Duration::from_secs(seconds)), wanted);
        }
        assert_eq!(&text(Duration::from_millis(1_007))[17..], "01.007Z");
    }
}
