//! Moments, written as those of cameras are: year-month-day hours:minutes:seconds.
use std::fs;
use std::path::Path;
use std::time::UNIX_EPOCH;

/// When a file was last changed, in universal time.
pub fn changed(file: &Path) -> Option<String> {
    let seconds = fs::metadata(file).ok()?.modified().ok()?.duration_since(UNIX_EPOCH).ok()?.as_secs();
    Some(written(seconds))
}

/// Seconds since the beginning of 1970.
fn written(seconds: u64) -> String {
    let (days, rest) = (seconds / 86_400, seconds % 86_400);
    let (mut year, mut day) = (1970, days);
    while day >= year_length(year) {
        day -= year_length(year);
        year += 1;
    }
    let mut month = 1;
    while day >= month_length(year, month) {
        day -= month_length(year, month);
        month += 1;
    }
    format!("{year:04}-{month:02}-{:02} {:02}:{:02}:{:02}", day + 1, rest / 3600, rest / 60 % 60, rest % 60)
}

fn is_leap(year: u64) -> bool {
    year.is_multiple_of(4) && !year.is_multiple_of(100) || year.is_multiple_of(400)
}

fn year_length(year: u64) -> u64 {
    if is_leap(year) { 366 } else { 365 }
}

fn month_length(year: u64, month: u64) -> u64 {
    match month {
        2 if is_leap(year) => 29,
        2 => 28,
        4 | 6 | 9 | 11 => 30,
        _ => 31,
    }
}

#[cfg(test)]
mod tests {
    use super::written;

    #[test]
    fn moments_that_others_name() {
        // `date -u -d @N`
        assert_eq!(written(0), "1970-01-01 00:00:00");
        assert_eq!(written(951_782_399), "2000-02-28 23:59:59");
        assert_eq!(written(951_782_400), "2000-02-29 00:00:00");
        assert_eq!(written(1_794_957_045), "2026-11-17 23:10:45");
        assert_eq!(written(4_107_542_400), "2100-03-01 00:00:00");
    }
}
