//! The trains, days and stations of a history, and lawful rows of them.

use crate::calendar::{Date, DAYS};
use crate::forms::{StpLetter, Uid};
use crate::generate::lawful::{self, put, put_run};
use crate::generate::spec::Sort;
use crate::generate::splitmix::SplitMix;
use crate::identity::Identity;
use crate::stores::record::Key;

const TRAINS: [u32; 8] = [
    0, 1, 99_999, 100_000, 212_345, 212_346, 1_000_000, 2_599_999,
];
/// The first of the trains that a crowd is of.
const CROWD: u32 = 500_000;
const STATIONS: [&str; 8] = [
    "HALTA", "HALTAJN", "SANDPT", "WESTBAY", "A", "0", "Z9", "ABCDEFG",
];
/// First days, counted from a week before the Monday.
const BEFORE: [u32; 7] = [0, 6, 7, 7, 8, 9, 11];
/// The Monday that most histories are about.
const MONDAY: u32 = 23_439;

pub struct Pool {
    trains: Vec<u32>,
    stations: Vec<&'static str>,
    firsts: Vec<u32>,
    monday: u32,
}

impl Pool {
    pub fn new(random: &mut SplitMix) -> Pool {
        let monday = match random.below(8) {
            0 => 7,
            1 => DAYS - 1 - random.below(9),
            2 => 7 + random.below(DAYS - 20),
            _ => MONDAY,
        };
        let days = 2 + random.index(3);
        let (trains, stations) = (3 + random.index(6), 2 + random.index(3));
        Pool {
            trains: some(random, &TRAINS, trains),
            stations: some(random, &STATIONS, stations),
            firsts: some(random, &BEFORE, days)
                .into_iter()
                .map(|before| (monday - 7 + before).min(DAYS - 1))
                .collect(),
            monday,
        }
    }

    /// The day that the history is about.
    pub fn monday(&self) -> u32 {
        self.monday
    }

    /// The BS row of the train of this number in a crowd, which runs every day for a while or until
    /// further notice, the Monday among them.
    pub fn schedule_of_crowd(&self, random: &mut SplitMix, number: u32) -> Vec<u8> {
        let first = self.monday - random.below(8);
        let key = Key {
            uid: Uid(CROWD + number),
            first: Date::at_number(first),
            stp: *random.choose(&[StpLetter::Permanent, StpLetter::NewShortTerm]),
        };
        let mut row = basic_schedule(random, b'N', key);
        put_run(random, &mut row, first, (self.monday + 9).min(DAYS - 1));
        put(&mut row, 22, b"1111111");
        row
    }

    /// A station that trains call at, filled up with blanks.
    pub fn station(&self, random: &mut SplitMix) -> Vec<u8> {
        format!("{:7}", random.choose(&self.stations)).into_bytes()
    }

    /// A day and a station.
    pub fn turn(&self, random: &mut SplitMix) -> (u32, Vec<u8>) {
        (self.day(random), self.station(random))
    }

    /// A day from the Sunday before the Monday to the Tuesday after, the week's more often; once in
    /// four times any later one, most often far past these, or the last of all.
    pub fn day(&self, random: &mut SplitMix) -> u32 {
        let days = [0, 1, 1, 1, 2, 2, 3, 3, 4, 5, 6, 7, 9];
        match random.below(8) {
            0 => DAYS - 1,
            1 => self.monday + random.below(DAYS - self.monday),
            _ => (self.monday - 1 + random.choose(&days)).min(DAYS - 1),
        }
    }

    pub fn key(&self, random: &mut SplitMix) -> Key {
        let letters = [
            StpLetter::Permanent,
            StpLetter::Permanent,
            StpLetter::Permanent,
            StpLetter::Overlay,
            StpLetter::Overlay,
            StpLetter::NewShortTerm,
            StpLetter::NewShortTerm,
            StpLetter::Cancellation,
        ];
        Key {
            uid: Uid(*random.choose(&self.trains)),
            first: Date::at_number(*random.choose(&self.firsts)),
            stp: *random.choose(&letters),
        }
    }
}

/// So many of these, or fewer where one comes twice.
fn some<T: Copy + PartialEq>(random: &mut SplitMix, all: &[T], count: usize) -> Vec<T> {
    let mut chosen = Vec::new();
    for _ in 0..count {
        let one = *random.choose(all);
        if !chosen.contains(&one) {
            chosen.push(one);
        }
    }
    chosen
}

/// A row of this identity whose every field has its form.
pub fn plain(random: &mut SplitMix, identity: Identity) -> Vec<u8> {
    lawful::row(random, Sort::plain(identity))
}

pub fn header(random: &mut SplitMix, current: &str, last: &str, kind: u8) -> Vec<u8> {
    let mut row = plain(random, Identity::Hd);
    put(&mut row, 33, current.as_bytes());
    put(&mut row, 40, last.as_bytes());
    put(&mut row, 47, &[kind]);
    row
}

/// A BS row with this letter of transaction for this key; most trains run on every day for a
/// week or so, and some until further notice.
pub fn basic_schedule(random: &mut SplitMix, change: u8, key: Key) -> Vec<u8> {
    let (sort, first) = match change {
        b'D' => (Sort::DELETED, key.first.digits()),
        _ => (Sort::CHANGED, key.first.digits()),
    };
    let mut row = lawful::row(random, sort);
    put(&mut row, 3, &[change]);
    put(&mut row, 4, key.uid.to_string().as_bytes());
    put(&mut row, 10, first.as_bytes());
    put(&mut row, 80, key.stp.letter().to_string().as_bytes());
    if change == b'D' {
        return row;
    }
    let first = key.first.number();
    let length = *random.choose(&[0, 2, 4, 6, 6, 7, 13, 30, 400]);
    put_run(random, &mut row, first, (first + length).min(DAYS - 1));
    match random.below(8) {
        0 => put(&mut row, 22, b"1111100"),
        1 => put(&mut row, 22, b"1011011"),
        2 => {}
        _ => put(&mut row, 22, b"1111111"),
    }
    row
}

/// A row of this location; its public times are there in most cases.
pub fn location(random: &mut SplitMix, identity: Identity, tiploc: &[u8]) -> Vec<u8> {
    let mut row = plain(random, identity);
    put(&mut row, 3, tiploc);
    let columns: &[usize] = match identity {
        Identity::Li => &[26, 30],
        _ => &[16],
    };
    for &column in columns {
        let time = match random.below(8) {
            0 => "0000".to_owned(),
            1 => "0001".to_owned(),
            2 => "2359".to_owned(),
            3..=5 => format!("09{:02}", random.below(3)),
            _ => format!("{:02}{:02}", random.below(24), random.below(60)),
        };
        put(&mut row, column, time.as_bytes());
    }
    row
}
