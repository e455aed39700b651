//! Rules 72 to 74: the UTC date of a number of seconds since 1970. The rules count off years and months; here years are taken
//! to begin in March, so that a leap day is the last of its year, and are found by division.

pub fn date(seconds: u64) -> String {
    let (days, second) = (seconds / 86_400, seconds % 86_400);
    // Since 1 March of the year 0: 1970-01-01 is day 719,468.
    let days = days + 719_468;
    let (cycle, day) = (days / 146_097, days % 146_097);
    let year = (day - day / 1_460 + day / 36_524 - day / 146_096) / 365;
    let day = day - (365 * year + year / 4 - year / 100);
    // Of the months from March on, five at a time have 153 days.
    let month = (5 * day + 2) / 153;
    let day = day - (153 * month + 2) / 5 + 1;
    let (year, month) = (400 * cycle + year + month / 10, (month + 2) % 12 + 1);
    let (hour, minute, second) = (second / 3_600, second / 60 % 60, second % 60);
    format!("{year:04}-{month:02}-{day:02} {hour:02}:{minute:02}:{second:02} UTC")
}

#[cfg(test)]
mod tests {
    use super::date;

    #[test]
    fn known_dates() {
        assert_eq!(date(0), "1970-01-01 00:00:00 UTC");
        assert_eq!(date(86_399), "1970-01-01 23:59:59 UTC");
        assert_eq!(date(951_782_400), "2000-02-29 00:00:00 UTC");
        assert_eq!(date(1_700_000_000), "2023-11-14 22:13:20 UTC");
        assert_eq!(date(u64::from(u32::MAX)), "2106-02-07 06:28:15 UTC");
    }

    /// Every day that 32 bits reach follows the one before it, by the rules' own years and months.
    #[test]
    fn days_in_order() {
        let leap = |year: u32| year % 400 == 0 || year % 4 == 0 && year % 100 != 0;
        let (mut year, mut month, mut day) = (1970, 1, 1);
        for days in 0..=u64::from(u32::MAX) / 86_400 {
            assert_eq!(date(86_400 * days), format!("{year:04}-{month:02}-{day:02} 00:00:00 UTC"));
            let length = match month {
                2 => 28 + u32::from(leap(year)),
                4 | 6 | 9 | 11 => 30,
                _ => 31,
            };
            day += 1;
            if day > length {
                (month, day) = (month + 1, 1);
            }
            if month > 12 {
                (year, month) = (year + 1, 1);
            }
        }
    }
}
