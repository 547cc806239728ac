//! The forms of the fields that are read, each a type of its own.

use crate::calendar::Date;

/// A form: what a field's bytes must look like, and what they then mean.
pub trait Form: Sized {
    /// What the bytes mean, or `None` where they lack the form.
    fn read(bytes: &[u8]) -> Option<Self>;
}

/// The number that a run of digits `0` to `9` writes.
fn number(digits: &[u8]) -> Option<u32> {
    digits.iter().try_fold(0, |sum, &byte| {
        let digit = char::from(byte).to_digit(10)?;
        Some(sum * 10 + digit)
    })
}

/// The bytes as text, where each of them fits.
fn text_of(bytes: &[u8], fits: impl Fn(u8) -> bool) -> Option<String> {
    bytes
        .iter()
        .map(|&byte| fits(byte).then_some(char::from(byte)))
        .collect()
}

fn is_letter_or_digit(byte: u8) -> bool {
    byte.is_ascii_uppercase() || byte.is_ascii_digit()
}

/// A letter `A` to `Z` and five digits, kept as the number they stand for.
#[derive(Clone, Copy, Debug, PartialEq, Eq, PartialOrd, Ord)]
pub struct Uid(pub u32);

impl Form for Uid {
    fn read(bytes: &[u8]) -> Option<Uid> {
        let (&letter, digits) = bytes.split_first()?;
        let place = (b'A'..=b'Z').position(|candidate| candidate == letter)?;
        Some(Uid(u32::try_from(place).ok()? * 100_000 + number(digits)?))
    }
}

/// Six digits YYMMDD that name a day.
impl Form for Date {
    fn read(bytes: &[u8]) -> Option<Date> {
        Date::new(
            number(&bytes[..2])?,
            number(&bytes[2..4])?,
            number(&bytes[4..])?,
        )
    }
}

/// The end of a schedule: the last day that the train runs, or that it has no end and runs until
/// further notice.
#[derive(Clone, Copy, Debug, PartialEq, Eq)]
pub enum End {
    LastDay(Date),
    NoEnd,
}

impl End {
    /// The digits that stand for no end.
    pub const NO_END: &[u8; 6] = b"999999";

    /// Whether a schedule with this end lasts to the day: its last day is that or a later one, or
    /// it has none.
    pub fn lasts_to(self, day: Date) -> bool {
        self.last_day().is_none_or(|last| day <= last)
    }

    /// The last day, if there is one.
    pub fn last_day(self) -> Option<Date> {
        match self {
            End::LastDay(last) => Some(last),
            End::NoEnd => None,
        }
    }
}

/// `999999`, or a date.
impl Form for End {
    fn read(bytes: &[u8]) -> Option<End> {
        if bytes == End::NO_END {
            return Some(End::NoEnd);
        }
        Date::read(bytes).map(End::LastDay)
    }
}

/// Seven of `0` or `1`, Monday first.
#[derive(Clone, Copy, Debug, PartialEq, Eq)]
pub struct DaysRun(pub [bool; 7]);

impl Form for DaysRun {
    fn read(bytes: &[u8]) -> Option<DaysRun> {
        let mut days = [false; 7];
        for (day, byte) in days.iter_mut().zip(bytes) {
            *day = match byte {
                b'0' => false,
                b'1' => true,
                _ => return None,
            };
        }
        Some(DaysRun(days))
    }
}

/// One to seven letters and digits, then only blanks.
#[derive(Clone, Debug, PartialEq, Eq)]
pub struct Tiploc(pub String);

impl Form for Tiploc {
    fn read(bytes: &[u8]) -> Option<Tiploc> {
        let length = bytes
            .iter()
            .take_while(|&&byte| is_letter_or_digit(byte))
            .count();
        let rest_is_blank = bytes[length..].iter().all(|&byte| byte == b' ');
        let text = text_of(bytes, |_| true)?;
        (length > 0 && rest_is_blank).then_some(Tiploc(text))
    }
}

/// A blank or a digit.
#[derive(Clone, Debug, PartialEq, Eq)]
pub struct Suffix(pub String);

impl Form for Suffix {
    fn read(bytes: &[u8]) -> Option<Suffix> {
        text_of(bytes, |byte| byte == b' ' || byte.is_ascii_digit()).map(Suffix)
    }
}

/// Letters, digits and blanks in any order: a train identity, operator or platform.
#[derive(Clone, Debug, PartialEq, Eq)]
pub struct Label(pub String);

impl Form for Label {
    fn read(bytes: &[u8]) -> Option<Label> {
        text_of(bytes, |byte| byte == b' ' || is_letter_or_digit(byte)).map(Label)
    }
}

/// Four digits HHMM from 0000 to 2359; 0000 means that there is no public time.
#[derive(Clone, Copy, Debug, PartialEq, Eq)]
pub enum PublicTime {
    None,
    Minute(u32),
}

impl Form for PublicTime {
    fn read(bytes: &[u8]) -> Option<PublicTime> {
        match (number(&bytes[..2])?, number(&bytes[2..])?) {
            (0, 0) => Some(PublicTime::None),
            (hours @ 0..=23, minutes @ 0..=59) => Some(PublicTime::Minute(hours * 60 + minutes)),
            _ => None,
        }
    }
}

/// Seven letters and digits.
#[derive(Clone, Debug, PartialEq, Eq)]
pub struct FileReference(pub String);

impl Form for FileReference {
    fn read(bytes: &[u8]) -> Option<FileReference> {
        text_of(bytes, is_letter_or_digit).map(FileReference)
    }
}

/// A file reference, or seven blanks.
#[derive(Clone, Debug, PartialEq, Eq)]
pub struct LastReference(pub String);

impl Form for LastReference {
    fn read(bytes: &[u8]) -> Option<LastReference> {
        text_of(bytes, is_letter_or_digit)
            .or_else(|| text_of(bytes, |byte| byte == b' '))
            .map(LastReference)
    }
}

/// `F` or `U`.
#[derive(Clone, Copy, Debug, PartialEq, Eq)]
pub enum ExtractKind {
    Full,
    Update,
}

impl Form for ExtractKind {
    fn read(bytes: &[u8]) -> Option<ExtractKind> {
        match bytes {
            b"F" => Some(ExtractKind::Full),
            b"U" => Some(ExtractKind::Update),
            _ => None,
        }
    }
}

/// `N`, `R` or `D`.
#[derive(Clone, Copy, Debug, PartialEq, Eq)]
pub enum Transaction {
    New,
    Revise,
    Delete,
}

impl Form for Transaction {
    fn read(bytes: &[u8]) -> Option<Transaction> {
        match bytes {
            b"N" => Some(Transaction::New),
            b"R" => Some(Transaction::Revise),
            b"D" => Some(Transaction::Delete),
            _ => None,
        }
    }
}

/// `C`, `N`, `O` or `P`, in the order of their ranks.
#[derive(Clone, Copy, Debug, PartialEq, Eq, PartialOrd, Ord)]
pub enum StpLetter {
    Cancellation,
    NewShortTerm,
    Overlay,
    Permanent,
}

impl StpLetter {
    pub fn letter(self) -> char {
        match self {
            StpLetter::Cancellation => 'C',
            StpLetter::NewShortTerm => 'N',
            StpLetter::Overlay => 'O',
            StpLetter::Permanent => 'P',
        }
    }
}

impl Form for StpLetter {
    fn read(bytes: &[u8]) -> Option<StpLetter> {
        match bytes {
            b"C" => Some(StpLetter::Cancellation),
            b"N" => Some(StpLetter::NewShortTerm),
            b"O" => Some(StpLetter::Overlay),
            b"P" => Some(StpLetter::Permanent),
            _ => None,
        }
    }
}

#[cfg(test)]
mod tests {
    use super::*;

    #[test]
    fn ends() {
        let day = |number| Some(End::LastDay(Date::at_number(number)));
        assert_eq!(End::read(b"999999"), Some(End::NoEnd));
        assert_eq!(End::read(b"240531"), day(23_527));
        assert_eq!(End::read(b"600101"), day(0));
        assert_eq!(End::read(b"591231"), day(36_524));
        for none in [
            b"999998", b"999990", b"899999", b"99999 ", b" 99999", b"999 99", b"990999", b"991299",
            b"999900", b"000000", b"      ", b"240230",
        ] {
            assert_eq!(End::read(none), None);
        }
        assert_eq!(Date::read(b"999999"), None);
    }

    #[test]
    fn how_long_it_lasts() {
        let lasts = |end: End, number| end.lasts_to(Date::at_number(number));
        let end = End::LastDay(Date::at_number(23_527));
        assert!(lasts(end, 0) && lasts(end, 23_526) && lasts(end, 23_527));
        assert!(!lasts(end, 23_528) && !lasts(end, 36_524));
        for number in [0, 1, 23_528, 36_523, 36_524] {
            assert!(lasts(End::NoEnd, number));
        }
    }
}
