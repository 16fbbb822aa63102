//! Dates of the years 2000 to 2399, one cycle of the Gregorian calendar: their weekdays, and the hours that they have.

/// A date that is there.
#[derive(Clone, Copy)]
pub struct Date {
    year: u16,
    month: u8,
    day: u8,
}

const SUNDAY: u8 = 7;
const MARCH: u8 = 3;
const OCTOBER: u8 = 10;

fn is_leap(year: u16) -> bool {
    year % 4 == 0 && (year % 100 != 0 || year % 400 == 0)
}

fn last_day(year: u16, month: u8) -> u8 {
    match month {
        2 if is_leap(year) => 29,
        2 => 28,
        4 | 6 | 9 | 11 => 30,
        _ => 31,
    }
}

impl Date {
    pub fn new(year: u16, month: u8, day: u8) -> Option<Date> {
        let there = (2000..=2399).contains(&year)
            && (1..=12).contains(&month)
            && (1..=last_day(year, month)).contains(&day);
        there.then_some(Date { year, month, day })
    }

    /// The days since 1 January 2000.
    fn days(self) -> u32 {
        let years: u32 = (2000..self.year).map(|y| 365 + u32::from(is_leap(y))).sum();
        let months: u32 = (1..self.month)
            .map(|m| u32::from(last_day(self.year, m)))
            .sum();
        years + months + u32::from(self.day) - 1
    }

    /// Monday 1 to Sunday 7. The first day of 2000 was a Saturday.
    pub fn weekday(self) -> u8 {
        ((5 + self.days()) % 7 + 1) as u8
    }

    /// Whether it is the last Sunday of its month.
    fn is_last_sunday(self) -> bool {
        self.weekday() == SUNDAY && self.day + 7 > last_day(self.year, self.month)
    }

    /// The clock goes forward on the last Sunday of March and back on the last Sunday of October.
    pub fn hours(self) -> u8 {
        match self.month {
            MARCH if self.is_last_sunday() => 23,
            OCTOBER if self.is_last_sunday() => 25,
            _ => 24,
        }
    }
}
