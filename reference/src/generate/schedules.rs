//! An extract of schedules that look lawful: keys repeat, most trains call at few places, and
//! some call too often. Now and then a row has a fault or the destination is missing.

use super::faulty;
use super::lawful::{self, put, put_run};
use super::spec::Sort;
use super::splitmix::SplitMix;
use crate::calendar::{Date, DAYS};
use crate::identity::Identity;

pub const UIDS: [&str; 6] = ["A00000", "A00001", "C12345", "C12346", "L99999", "Z99999"];
pub const FIRST_DAYS: [u32; 4] = [0, 23_355, 23_356, DAYS - 1];

/// What stands where there is no public time.
const NO_TIME: &str = "0000";

/// The places that trains go by, in order; two rounds of them are more than 48 calls.
const PLACES: [&str; 31] = [
    "A", "AB", "ABC", "ABCD", "ABCDE", "ABCDEF", "ABCDEFG", "ABCDEFH", "B", "BA", "HALTA",
    "HALTAJN", "HALTB", "MARLYND", "COPSEGT", "STOKFLD", "VIADCTJ", "WESTBAY", "SANDPT", "0", "1",
    "01", "10", "Z", "ZZ", "Z9", "9Z", "NORBRGE", "OLDQUAY", "DUNMERN", "QUARRYS",
];

/// How a train goes: where it begins, whether it wanders among few places, and whether it
/// has a public time wherever it goes.
pub struct Route {
    start: usize,
    wanders: bool,
    all_public: bool,
}

impl Route {
    pub fn new(random: &mut SplitMix) -> Route {
        Route {
            start: random.index(PLACES.len()),
            wanders: random.once_in(6),
            all_public: random.once_in(2),
        }
    }

    /// The place that the train is at after so many others.
    fn place(&self, random: &mut SplitMix, step: usize) -> &'static str {
        let ahead = if self.wanders {
            random.index(4)
        } else if random.once_in(150) {
            random.index(PLACES.len())
        } else {
            step
        };
        PLACES[(self.start + ahead) % PLACES.len()]
    }

    fn has_public_time(&self, random: &mut SplitMix) -> bool {
        self.all_public || !random.once_in(5)
    }
}

/// The rows of an extract with so many schedules.
pub fn extract(random: &mut SplitMix, count: usize) -> Vec<Vec<u8>> {
    let mut rows = vec![row(random, Identity::Hd)];
    for _ in 0..count {
        add_schedule(random, &mut rows);
    }
    rows.push(row(random, Identity::Zz));
    rows
}

/// A row of this identity, if of BS then one that is not a deletion.
pub fn row(random: &mut SplitMix, identity: Identity) -> Vec<u8> {
    lawful::row(random, Sort::plain(identity))
}

/// Adds the rows of a schedule. A deletion or cancellation has most often no more than its
/// BS row.
fn add_schedule(random: &mut SplitMix, rows: &mut Vec<Vec<u8>>) {
    let deleted = random.once_in(6);
    let letter = *random.choose(b"CNNOOPPP");
    let sort = if deleted {
        Sort::DELETED
    } else {
        Sort::CHANGED
    };
    let basic = basic_schedule(random, sort, letter);
    add(random, rows, sort, basic);
    if (deleted || letter == b'C') && !random.once_in(4) {
        return;
    }
    add_extra(random, rows);
    add_route(random, rows);
}

/// Adds the row, once in eighty times with a fault.
fn add(random: &mut SplitMix, rows: &mut Vec<Vec<u8>>, sort: Sort, row: Vec<u8>) {
    let row = if random.once_in(80) {
        faulty::spoilt(random, sort, row)
    } else {
        row
    };
    rows.push(row);
}

fn basic_schedule(random: &mut SplitMix, sort: Sort, letter: u8) -> Vec<u8> {
    let mut row = lawful::row(random, sort);
    let first = if random.once_in(5) {
        random.below(DAYS)
    } else {
        *random.choose(&FIRST_DAYS)
    };
    if sort == Sort::DELETED {
        put(&mut row, 10, Date::at_number(first).digits().as_bytes());
    } else {
        put(&mut row, 3, &random.bytes(1, b"NNNNR"));
        let last = first + random.below(DAYS - first);
        put_run(random, &mut row, first, last);
    }
    put(&mut row, 4, random.choose(&UIDS).as_bytes());
    put(&mut row, 80, &[letter]);
    row
}

/// Adds a BX row in most cases, and once in a while two.
fn add_extra(random: &mut SplitMix, rows: &mut Vec<Vec<u8>>) {
    for _ in 0..*random.choose(&[0, 0, 1, 1, 1, 1, 1, 2]) {
        add_plain(random, rows, Identity::Bx);
    }
}

/// Adds a row of which nothing more is asked.
fn add_plain(random: &mut SplitMix, rows: &mut Vec<Vec<u8>>, identity: Identity) {
    let plain = row(random, identity);
    add(random, rows, Sort::plain(identity), plain);
}

/// Adds origin, calls on the way and, but for once in twelve times, the destination.
fn add_route(random: &mut SplitMix, rows: &mut Vec<Vec<u8>>) {
    let route = Route::new(random);
    let between = match random.below(12) {
        0 | 1 => 45 + random.index(4),
        2 => random.index(61),
        _ => random.index(9),
    };
    add_location(random, rows, &route, Identity::Lo, 0);
    for step in 1..=between {
        if random.once_in(20) {
            add_plain(random, rows, Identity::Cr);
        }
        add_location(random, rows, &route, Identity::Li, step);
    }
    if !random.once_in(12) {
        add_location(random, rows, &route, Identity::Lt, between + 1);
    }
}

fn add_location(
    random: &mut SplitMix,
    rows: &mut Vec<Vec<u8>>,
    route: &Route,
    identity: Identity,
    step: usize,
) {
    let location = location(random, route, identity, step);
    add(random, rows, Sort::plain(identity), location);
}

/// The row of the place that the train is at after so many others.
pub fn location(random: &mut SplitMix, route: &Route, identity: Identity, step: usize) -> Vec<u8> {
    let mut location = row(random, identity);
    let place = route.place(random, step);
    put(&mut location, 3, format!("{place:7}").as_bytes());
    let columns = time_columns(identity);
    let public = route.has_public_time(random);
    for &column in columns {
        let time = if public {
            time(random)
        } else {
            NO_TIME.to_owned()
        };
        put(&mut location, column, time.as_bytes());
    }
    if public && identity == Identity::Li && random.once_in(5) {
        put(&mut location, *random.choose(columns), NO_TIME.as_bytes());
    }
    location
}

/// Where the public times of a location row stand.
fn time_columns(identity: Identity) -> &'static [usize] {
    match identity {
        Identity::Li => &[26, 30],
        _ => &[16],
    }
}

/// The location row without its public times.
pub fn passed(mut location: Vec<u8>, identity: Identity) -> Vec<u8> {
    for &column in time_columns(identity) {
        put(&mut location, column, NO_TIME.as_bytes());
    }
    location
}

/// A public time that is one: not 0000.
fn time(random: &mut SplitMix) -> String {
    let minute = 1 + random.below(1_439);
    format!("{:02}{:02}", minute / 60, minute % 60)
}

#[cfg(test)]
mod tests {
    use super::*;
    use crate::row::Row;

    #[test]
    fn most_rows_are_read() {
        let rows = extract(&mut SplitMix::new(3), 2_000);
        let refused = rows.iter().filter(|row| Row::read(row).is_err()).count();
        assert!(refused > rows.len() / 120 && refused < rows.len() / 40);
        assert!(rows[0].starts_with(b"HD") && rows[rows.len() - 1].starts_with(b"ZZ"));
    }
}
