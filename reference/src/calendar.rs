//! The days from 1 January 1960 to 31 December 2059, counted month by month.

use std::fmt;

/// The year whose first day has number 0.
const FIRST_YEAR: u32 = 1960;

/// How many days there are from 1960 to 2059.
pub const DAYS: u32 = 36_525;

#[derive(Clone, Copy, Debug, PartialEq, Eq)]
pub enum Weekday {
    Monday,
    Tuesday,
    Wednesday,
    Thursday,
    Friday,
    Saturday,
    Sunday,
}

impl Weekday {
    /// The seven weekdays, beginning with that of 1 January 1960.
    const FROM_FIRST_DAY: [Weekday; 7] = [
        Weekday::Friday,
        Weekday::Saturday,
        Weekday::Sunday,
        Weekday::Monday,
        Weekday::Tuesday,
        Weekday::Wednesday,
        Weekday::Thursday,
    ];
}

impl fmt::Display for Weekday {
    fn fmt(&self, f: &mut fmt::Formatter<'_>) -> fmt::Result {
        fmt::Debug::fmt(self, f)
    }
}

/// A day of the Gregorian calendar from 1960 to 2059.
#[derive(Clone, Copy, Debug, PartialEq, Eq, PartialOrd, Ord)]
pub struct Date {
    year: u32,
    month: u32,
    day: u32,
}

impl Date {
    /// The date of a two-digit year, a month and a day; 60 to 99 means 1960 to 1999,
    /// and 00 to 59 means 2000 to 2059. `None` where the calendar has no such day.
    pub fn new(short_year: u32, month: u32, day: u32) -> Option<Date> {
        let year = match short_year {
            0..=59 => 2000 + short_year,
            60..=99 => 1900 + short_year,
            _ => return None,
        };
        let lawful = (1..=12).contains(&month) && (1..=days_in_month(year, month)).contains(&day);
        lawful.then_some(Date { year, month, day })
    }

    /// How many days lie between 1 January 1960 and this day.
    pub fn number(self) -> u32 {
        let years_before: u32 = (FIRST_YEAR..self.year).map(days_in_year).sum();
        let months_before: u32 = (1..self.month)
            .map(|month| days_in_month(self.year, month))
            .sum();
        years_before + months_before + self.day - 1
    }

    /// The day that lies so many days after 1 January 1960.
    pub fn at_number(number: u32) -> Date {
        let (mut year, mut month, mut left) = (FIRST_YEAR, 1, number);
        while left >= days_in_month(year, month) {
            left -= days_in_month(year, month);
            (year, month) = if month == 12 {
                (year + 1, 1)
            } else {
                (year, month + 1)
            };
        }
        Date {
            year,
            month,
            day: left + 1,
        }
    }

    pub fn weekday(self) -> Weekday {
        Weekday::FROM_FIRST_DAY[self.number() as usize % 7]
    }

    /// The six digits YYMMDD.
    pub fn digits(self) -> String {
        format!("{:02}{:02}{:02}", self.year % 100, self.month, self.day)
    }
}

/// As the report tells it: the day's number, and its weekday in brackets.
impl fmt::Display for Date {
    fn fmt(&self, f: &mut fmt::Formatter<'_>) -> fmt::Result {
        write!(f, "day {} ({})", self.number(), self.weekday())
    }
}

fn is_leap(year: u32) -> bool {
    year.is_multiple_of(4) && (!year.is_multiple_of(100) || year.is_multiple_of(400))
}

fn days_in_month(year: u32, month: u32) -> u32 {
    match month {
        2 if is_leap(year) => 29,
        2 => 28,
        4 | 6 | 9 | 11 => 30,
        _ => 31,
    }
}

fn days_in_year(year: u32) -> u32 {
    (1..=12).map(|month| days_in_month(year, month)).sum()
}

#[cfg(test)]
mod tests {
    use super::*;

    #[test]
    fn the_table_of_days() {
        let told = |y, m, d| Date::new(y, m, d).map(|date| (date.number(), date.weekday()));
        assert_eq!(told(60, 1, 1), Some((0, Weekday::Friday)));
        assert_eq!(told(0, 2, 29), Some((14_669, Weekday::Tuesday)));
        assert_eq!(told(23, 2, 29), None);
        assert_eq!(told(24, 2, 29), Some((23_435, Weekday::Thursday)));
        assert_eq!(told(59, 12, 31), Some((36_524, Weekday::Wednesday)));
    }

    #[test]
    fn every_number_comes_back() {
        assert!((0..DAYS).all(|number| Date::at_number(number).number() == number));
    }
}
