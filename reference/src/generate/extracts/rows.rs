//! The rows of extracts that schedules do not already have: headers, and BS rows for a key.

use crate::calendar::{Date, DAYS};
use crate::forms::Tiploc;
use crate::generate::lawful::{self, put, put_run};
use crate::generate::schedules::{self, FIRST_DAYS, UIDS};
use crate::generate::spec::Sort;
use crate::generate::splitmix::SplitMix;
use crate::identity::Identity;
use crate::row::Row;

const BLANK: &[u8; 7] = b"       ";

/// What a schedule goes under.
#[derive(Clone, Copy, PartialEq, Eq, PartialOrd, Ord)]
pub struct Key {
    uid: &'static str,
    first: u32,
    pub letter: u8,
}

impl Key {
    /// One of few keys.
    pub fn any(random: &mut SplitMix) -> Key {
        let &uid = random.choose(&UIDS);
        Key {
            uid,
            first: *random.choose(&FIRST_DAYS),
            letter: *random.choose(b"CNNOOPPP"),
        }
    }
}

/// The header of a full extract.
pub fn full_header(random: &mut SplitMix) -> Vec<u8> {
    header(random, BLANK, b'F')
}

/// A header whose last reference is not in force, is the current one, or does not go with the
/// kind of extract.
pub fn unfit_header(random: &mut SplitMix) -> Vec<u8> {
    match random.below(4) {
        0 => header(random, b"DFROC1A", b'U'),
        1 => header(random, b"DFROC1A", b'F'),
        2 => header(random, BLANK, b'U'),
        _ => {
            let mut header = header(random, BLANK, b'U');
            let current = header[32..39].to_vec();
            put(&mut header, 40, &current);
            header
        }
    }
}

fn header(random: &mut SplitMix, last: &[u8], kind: u8) -> Vec<u8> {
    let mut header = schedules::row(random, Identity::Hd);
    put(&mut header, 40, last);
    put(&mut header, 47, &[kind]);
    header
}

/// A BS row with this letter of transaction for this key.
pub fn basic_schedule(random: &mut SplitMix, change: u8, key: Key) -> Vec<u8> {
    let mut row = lawful::row(random, sort_of(change));
    put(&mut row, 3, &[change]);
    put(&mut row, 4, key.uid.as_bytes());
    if change == b'D' {
        put(&mut row, 10, Date::at_number(key.first).digits().as_bytes());
    } else {
        let last = key.first + random.below(DAYS - key.first);
        put_run(random, &mut row, key.first, last);
    }
    put(&mut row, 80, &[key.letter]);
    row
}

/// Where the call of a location row is, if it is kept.
pub fn kept_at(row: &[u8]) -> Option<Tiploc> {
    Row::read(row).ok()?.1.kept_at().cloned()
}

/// The sort of a BS row with this letter of transaction.
pub fn sort_of(change: u8) -> Sort {
    if change == b'D' {
        Sort::DELETED
    } else {
        Sort::CHANGED
    }
}
