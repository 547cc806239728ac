//! Rows that are read, and values that have their form.

use super::spec::{Sort, Spec};
use super::splitmix::SplitMix;
use crate::calendar::{Date, DAYS};
use crate::fields::LENGTH;
use crate::forms::End;
use crate::identity::Identity;

pub const DIGITS: &[u8] = b"0123456789";
pub const LETTERS: &[u8] = b"ABCDEFGHIJKLMNOPQRSTUVWXYZ";
/// One schedule in so many has no end.
const ENDLESS: u32 = 10;
const NAME: &[u8] = b"ABCDEFGHIJKLMNOPQRSTUVWXYZ0123456789";
const LABEL: &[u8] = b"ABCDEFGHIJKLMNOPQRSTUVWXYZ0123456789          ";

/// Puts the bytes into the row from this column on.
pub fn put(row: &mut [u8], column: usize, bytes: &[u8]) {
    row[column - 1..column - 1 + bytes.len()].copy_from_slice(bytes);
}

/// A sort of row, the rows with more fields more often.
pub fn sort(random: &mut SplitMix) -> Sort {
    let often = [
        Identity::Hd,
        Identity::Bs,
        Identity::Bs,
        Identity::Bs,
        Identity::Bx,
    ]
    .into_iter()
    .chain([
        Identity::Lo,
        Identity::Lo,
        Identity::Li,
        Identity::Li,
        Identity::Lt,
        Identity::Lt,
    ])
    .chain(Identity::ALL)
    .collect::<Vec<_>>();
    let identity = *random.choose(&often);
    Sort {
        identity,
        deleted: identity == Identity::Bs && random.once_in(4),
    }
}

/// A row of this sort whose every field has its form. Columns that are not read hold any
/// printable byte, or in some rows blanks; in some deletions what stands for no end.
pub fn row(random: &mut SplitMix, sort: Sort) -> Vec<u8> {
    let blank = random.once_in(4);
    let mut row: Vec<u8> = (0..LENGTH)
        .map(|_| if blank { b' ' } else { random.printable() })
        .collect();
    put(&mut row, 1, sort.identity.code().as_bytes());
    for &(column, spec) in sort.fields() {
        put(&mut row, column, &value(random, spec));
    }
    if sort == Sort::CHANGED {
        let first = random.below(DAYS);
        let last = if random.once_in(8) {
            first
        } else {
            random.below(DAYS)
        };
        put_run(random, &mut row, first.min(last), first.max(last));
    } else if sort == Sort::DELETED && random.once_in(ENDLESS) {
        put(&mut row, 16, End::NO_END);
    }
    row
}

/// Puts the first day of a schedule, given by its number, and the last, or now and then no end in
/// its place.
pub fn put_run(random: &mut SplitMix, row: &mut [u8], first: u32, last: u32) {
    put_days(row, first, last);
    if random.once_in(ENDLESS) {
        put(row, 16, End::NO_END);
    }
}

/// Puts the first and the last day of a schedule, given by their numbers.
pub fn put_days(row: &mut [u8], first: u32, last: u32) {
    put(row, 10, Date::at_number(first).digits().as_bytes());
    put(row, 16, Date::at_number(last).digits().as_bytes());
}

/// A value of this form, anywhere in its range.
pub fn value(random: &mut SplitMix, spec: Spec) -> Vec<u8> {
    match spec {
        Spec::Uid => [random.bytes(1, LETTERS), random.bytes(5, DIGITS)].concat(),
        Spec::Date | Spec::End => Date::at_number(random.below(DAYS)).digits().into_bytes(),
        Spec::DaysRun if random.once_in(16) => b"0000000".to_vec(),
        Spec::DaysRun => random.bytes(7, b"01"),
        Spec::Tiploc => {
            let length = 1 + random.index(7);
            tiploc(random, length)
        }
        Spec::Suffix if random.once_in(2) => b" ".to_vec(),
        Spec::Suffix => random.bytes(1, DIGITS),
        Spec::Label(length) => random.bytes(length, LABEL),
        Spec::Time => time(random),
        Spec::LastReference if random.once_in(3) => vec![b' '; 7],
        Spec::Reference | Spec::LastReference => random.bytes(7, NAME),
        Spec::Letter(lawful, _) => random.bytes(1, lawful),
    }
}

/// A TIPLOC of so many letters and digits.
pub fn tiploc(random: &mut SplitMix, length: usize) -> Vec<u8> {
    let mut bytes = random.bytes(length, NAME);
    bytes.resize(7, b' ');
    bytes
}

/// A public time, somewhat more often none, the first or the last.
fn time(random: &mut SplitMix) -> Vec<u8> {
    match random.below(12) {
        0 | 1 => b"0000".to_vec(),
        2 => random.choose(&[b"0001", b"2359"]).to_vec(),
        _ => format!("{:02}{:02}", random.below(24), random.below(60)).into_bytes(),
    }
}
