//! Rows with a planted fault, and values that just lack their form.

use super::lawful::{self, put, put_days, value};
use super::spec::{Sort, Spec};
use super::splitmix::SplitMix;
use crate::calendar::{Date, DAYS};
use crate::forms::End;
use crate::identity::Identity;

/// A row with a fault of some kind, or with garbage that is not read.
pub fn row(random: &mut SplitMix) -> Vec<u8> {
    match random.below(20) {
        0 | 1 => wrong_length(random),
        2 | 3 => {
            let sort = lawful::sort(random);
            let row = lawful::row(random, sort);
            with_unprintable(random, row)
        }
        4 | 5 => {
            let sort = lawful::sort(random);
            let row = lawful::row(random, sort);
            with_unknown_identity(random, row)
        }
        6 | 7 => reversed_days(random),
        8 | 9 => deleted_with_garbage(random),
        10 => {
            let row = reversed_days(random);
            with_bad_fields(random, Sort::CHANGED, row, 1)
        }
        11 => layered(random),
        _ => bad_fields(random),
    }
}

/// This row of this sort, with a fault.
pub fn spoilt(random: &mut SplitMix, sort: Sort, row: Vec<u8>) -> Vec<u8> {
    match random.below(6) {
        0 => with_wrong_length(random, row),
        1 => with_unprintable(random, row),
        2 => with_unknown_identity(random, row),
        _ if sort.fields().is_empty() => with_unknown_identity(random, row),
        _ => with_bad_fields(random, sort, row, 1),
    }
}

fn wrong_length(random: &mut SplitMix) -> Vec<u8> {
    let sort = lawful::sort(random);
    let row = lawful::row(random, sort);
    with_wrong_length(random, row)
}

/// Up to a few hundred bytes, but most often 79 or 81.
fn with_wrong_length(random: &mut SplitMix, mut row: Vec<u8>) -> Vec<u8> {
    let length = match random.below(8) {
        0..=2 => 79,
        3..=5 => 81,
        6 => random.index(80),
        _ => 81 + random.index(300),
    };
    row.resize(length, b' ');
    row
}

/// One or two bytes outside 32 to 126, but not a line feed, which would end the row.
fn with_unprintable(random: &mut SplitMix, mut row: Vec<u8>) -> Vec<u8> {
    let unprintable: Vec<u8> = (0..32)
        .chain(127..=255)
        .filter(|&byte| byte != b'\n')
        .collect();
    for _ in 0..1 + random.index(2) {
        let byte = match random.below(4) {
            0 => *random.choose(&[0, 31, 127, 255]),
            _ => *random.choose(&unprintable),
        };
        let index = random.index(row.len());
        row[index] = byte;
    }
    row
}

/// An identity in lower case, or turned round, or blank, or with one byte changed.
fn with_unknown_identity(random: &mut SplitMix, mut row: Vec<u8>) -> Vec<u8> {
    let known = [row[0], row[1]];
    while Identity::of(&row[..2]).is_some() {
        let mut near = known;
        match random.below(6) {
            0 => near.make_ascii_lowercase(),
            1 => near.reverse(),
            2 => near[random.index(2)] = b' ',
            3 => near[random.index(2)] = random.printable(),
            4 => near[random.index(2)] += 1,
            _ => near = *b"  ",
        }
        put(&mut row, 1, &near);
    }
    row
}

/// A new or revised schedule that runs from a later day than it runs to.
pub fn reversed_days(random: &mut SplitMix) -> Vec<u8> {
    let mut row = lawful::row(random, Sort::CHANGED);
    let last = random.below(DAYS - 1);
    let later = if random.once_in(3) {
        1
    } else {
        1 + random.below(DAYS - 1 - last)
    };
    put_days(&mut row, last + later, last);
    row
}

/// A schedule, be it deleted or not, with what stands for no end in the place of its first day.
pub fn no_first_day(random: &mut SplitMix) -> Vec<u8> {
    let sort = *random.choose(&[Sort::CHANGED, Sort::CHANGED, Sort::DELETED]);
    let mut row = lawful::row(random, sort);
    put(&mut row, 10, End::NO_END);
    row
}

/// A schedule deleted whose columns 16 to 36 hold anything; it is read all the same.
fn deleted_with_garbage(random: &mut SplitMix) -> Vec<u8> {
    let mut row = lawful::row(random, Sort::DELETED);
    for column in 16..=36 {
        put(&mut row, column, &[random.printable()]);
    }
    if random.once_in(2) {
        put(&mut row, 16, &near_miss(random, Spec::End));
        put(&mut row, 22, &near_miss(random, Spec::DaysRun));
        put(&mut row, 33, &near_miss(random, Spec::Label(4)));
    }
    row
}

/// Bad fields, and above them an unknown identity, an unprintable byte, or both.
fn layered(random: &mut SplitMix) -> Vec<u8> {
    let above = random.below(3);
    let mut row = bad_fields(random);
    if above != 0 {
        row = with_unknown_identity(random, row);
    }
    if above != 1 {
        row = with_unprintable(random, row);
    }
    row
}

/// A row with one to three fields that lack their form.
fn bad_fields(random: &mut SplitMix) -> Vec<u8> {
    let mut sort = lawful::sort(random);
    while sort.fields().is_empty() {
        sort = lawful::sort(random);
    }
    let row = lawful::row(random, sort);
    let count = *random.choose(&[1, 1, 1, 1, 2, 3]);
    with_bad_fields(random, sort, row, count)
}

fn with_bad_fields(random: &mut SplitMix, sort: Sort, mut row: Vec<u8>, count: usize) -> Vec<u8> {
    for _ in 0..count {
        let &(column, spec) = random.choose(sort.fields());
        put(&mut row, column, &near_miss(random, spec));
    }
    row
}

/// A value that just lacks this form.
fn near_miss(random: &mut SplitMix, spec: Spec) -> Vec<u8> {
    match spec {
        Spec::Uid if random.once_in(2) => with_one(random, spec, 0..1, b"@[abz 0"),
        Spec::Uid => with_one(random, spec, 1..6, b"/: AO"),
        Spec::Date if random.once_in(2) => End::NO_END.to_vec(),
        Spec::End if random.once_in(4) => nearly_no_end(random),
        Spec::Date | Spec::End if random.once_in(3) => with_one(random, Spec::Date, 0..6, b"/: O"),
        Spec::Date | Spec::End => no_such_day(random),
        Spec::DaysRun => with_one(random, spec, 0..7, b"/2 9Yy"),
        Spec::Tiploc => bad_tiploc(random),
        Spec::Suffix => with_one(random, spec, 0..1, b"/:!A-a"),
        Spec::Label(length) => with_one(random, spec, 0..length, b"/:@[az!~"),
        Spec::Time => match random.below(4) {
            0 => format!("{:02}{:02}", 24 + random.below(6), random.below(60)).into_bytes(),
            1 => format!("{:02}{:02}", random.below(24), 60 + random.below(40)).into_bytes(),
            2 => random
                .choose(&[b"2400", b"1260", b"0060", b"    "])
                .to_vec(),
            _ => with_one(random, spec, 0..4, b"/: H"),
        },
        Spec::Reference => with_one(random, spec, 0..7, b"/:@[az "),
        Spec::LastReference if random.once_in(3) => {
            let length = 1 + random.index(6);
            lawful::tiploc(random, length)
        }
        Spec::LastReference => with_one(random, spec, 0..7, b"/:@[az"),
        Spec::Letter(_, near) => random.bytes(1, near),
    }
}

/// A lawful value with one byte, at one of these places, taken from `wrong`.
fn with_one(
    random: &mut SplitMix,
    spec: Spec,
    places: std::ops::Range<usize>,
    wrong: &[u8],
) -> Vec<u8> {
    let mut bytes = value(random, spec);
    bytes[places.start + random.index(places.len())] = *random.choose(wrong);
    bytes
}

/// What stands for no end, with another digit, a blank or a mark in one place: no date either.
fn nearly_no_end(random: &mut SplitMix) -> Vec<u8> {
    let mut bytes = End::NO_END.to_vec();
    let index = random.index(bytes.len());
    bytes[index] = *random.choose(b"0128 /:");
    bytes
}

/// Six digits that name no day, nor stand for no end.
fn no_such_day(random: &mut SplitMix) -> Vec<u8> {
    loop {
        let (month, day) = match random.below(6) {
            0 => (*random.choose(&[0, 13, 99]), 1 + random.below(28)),
            1 => (1 + random.below(12), *random.choose(&[0, 32, 99])),
            2 => (*random.choose(&[4, 6, 9, 11]), 31),
            3 => (2, 30),
            _ => (2, 29),
        };
        let year = random.below(100);
        if Date::new(year, month, day).is_none() {
            return format!("{year:02}{month:02}{day:02}").into_bytes();
        }
    }
}

/// A blank before a letter or digit, no letter or digit at all, or a byte that is neither.
fn bad_tiploc(random: &mut SplitMix) -> Vec<u8> {
    match random.below(4) {
        0 => vec![b' '; 7],
        1 | 2 => {
            let length = 2 + random.index(6);
            let mut bytes = lawful::tiploc(random, length);
            bytes[random.index(length - 1)] = b' ';
            bytes
        }
        _ => with_one(random, Spec::Tiploc, 0..7, b"/:@[az-."),
    }
}
