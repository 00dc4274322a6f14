//! The gateway's clock: moments in UTC.

use humantime::{format_rfc3339_millis, parse_rfc3339_weak};
use std::fmt;
use std::time::{Duration, SystemTime, UNIX_EPOCH};

/// Milliseconds since 1970 began.
#[derive(Clone, Copy, PartialEq, Eq, PartialOrd, Ord, Debug)]
pub struct Moment(pub u64);

pub const MILLISECONDS_OF_A_DAY: u64 = 86_400_000;
/// The last one of the year 9999, which is the last that can be written.
const LAST: u64 = 253_402_300_799_999;

impl Moment {
    pub fn now() -> Moment {
        let since = SystemTime::now().duration_since(UNIX_EPOCH).unwrap_or_default();
        Moment(since.as_millis() as u64)
    }

    /// `2026-11-15`, its start; or `2026-11-15T08:31:07`, with a fraction and a Z if need be.
    pub fn read(text: &str) -> Option<Moment> {
        let time = match Moment::is_day(text) {
            true => parse_rfc3339_weak(&format!("{text}T00:00:00")),
            false => parse_rfc3339_weak(text),
        };
        let since = time.ok()?.duration_since(UNIX_EPOCH).ok()?;
        Some(Moment(since.as_millis() as u64))
    }

    pub fn is_day(text: &str) -> bool {
        text.len() == "2026-11-15".len()
    }
}

impl fmt::Display for Moment {
    fn fmt(&self, f: &mut fmt::Formatter) -> fmt::Result {
        format_rfc3339_millis(UNIX_EPOCH + Duration::from_millis(self.0.min(LAST))).fmt(f)
    }
}

#[cfg(test)]
mod tests {
    use super::*;

    #[test]
    fn read_as_written() {
        for day in (0..60_000).chain([2_932_896]) {
            let text = Moment(day * MILLISECONDS_OF_A_DAY + 7).to_string();
            assert_eq!(Moment::read(&text), Some(Moment(day * MILLISECONDS_OF_A_DAY + 7)));
            assert_eq!(Moment::read(&text[..10]), Some(Moment(day * MILLISECONDS_OF_A_DAY)));
        }
        assert_eq!(Moment(951_868_799_999).to_string(), "2000-02-29T23:59:59.999Z");
        assert_eq!(Moment(u64::MAX).to_string(), "9999-12-31T23:59:59.999Z");
        assert_eq!(Moment::read("2026-11-15T08:31:07.5").map(|moment| moment.0 % 1000), Some(500));
        for wrong in [
            "",
            "2026",
            "2026-02-29",
            "1969-12-31",
            "2026-13-01",
            "2026-01-01T24:00:00",
            "+2026-01-01",
            "2026-01-01T1:2",
        ] {
            assert_eq!(Moment::read(wrong), None, "{wrong}");
        }
    }
}
