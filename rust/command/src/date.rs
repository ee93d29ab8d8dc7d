//! When a file was last written.

use std::time::{SystemTime, UNIX_EPOCH};

/// Day and minute, UTC. None for a time before 1970.
pub fn date(time: SystemTime) -> Option<String> {
    let minutes = time.duration_since(UNIX_EPOCH).ok()?.as_secs() / 60;
    let (year, month, day) = civil(minutes / 1440);
    Some(format!("{year}-{month:02}-{day:02} {:02}:{:02} UTC", minutes / 60 % 24, minutes % 60))
}

/// Year, month and day of a number of days since 1970. Years begin in March here, so that a leap day comes last.
fn civil(days: u64) -> (u64, u64, u64) {
    let days = days + 719_468; // since March 1 of the year 0
    let (era, day) = (days / 146_097, days % 146_097);
    let year = (day - day / 1_460 + day / 36_524 - day / 146_096) / 365;
    let day = day - (365 * year + year / 4 - year / 100);
    let month = (5 * day + 2) / 153;
    let date = day - (153 * month + 2) / 5 + 1;
    let month = if month < 10 { month + 3 } else { month - 9 };
    (400 * era + year + u64::from(month <= 2), month, date)
}

#[cfg(test)]
mod tests {
    use super::civil;

    #[test]
    fn days() {
        let days = [(0, (1970, 1, 1)), (59, (1970, 3, 1)), (789, (1972, 2, 29)), (11_016, (2000, 2, 29))];
        assert!(days.iter().all(|&(number, date)| civil(number) == date));
        assert_eq!([20_774, 47_540, 47_541].map(civil), [(2026, 11, 17), (2100, 2, 28), (2100, 3, 1)]);
    }
}
