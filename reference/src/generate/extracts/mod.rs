//! Extracts one after another, for a store that is empty: most rows are lawful, and their
//! transactions meet keys that are there and keys that are not. About one row in 25 has a
//! planted fault; most often it stands before the lawful row, and now and then in its place,
//! so that the rows after it do not fit either.

mod rows;

use super::faulty;
use super::lawful;
use super::schedules::{self, Route};
use super::spec::Sort;
use super::splitmix::SplitMix;
use crate::extract::stage::Stage;
use crate::forms::Tiploc;
use crate::identity::Identity;
use crate::stores::record::{CALLS, VISITS};
use rows::{kept_at, sort_of, Key};
use std::collections::BTreeSet;

/// One extract in so many is large.
const LARGE: usize = 8;

/// The rows so far, and the keys that are there unless a fault prevented it.
struct Writer<'a> {
    random: &'a mut SplitMix,
    rows: Vec<Vec<u8>>,
    present: BTreeSet<Key>,
}

/// The rows of so many extracts.
pub fn extracts(random: &mut SplitMix, count: usize) -> Vec<Vec<u8>> {
    let mut writer = Writer {
        random,
        rows: Vec::new(),
        present: BTreeSet::new(),
    };
    for number in 1..=count {
        let large = number % LARGE == 0;
        let before_large = (number + 1) % LARGE == 0;
        writer.add_extract(large, large || before_large);
    }
    writer.rows
}

impl Writer<'_> {
    /// Adds an extract, with more than 32 transactions if it is large. Where it need not end it
    /// now and then does not.
    fn add_extract(&mut self, large: bool, ends: bool) {
        self.present.clear();
        self.add_header();
        let transactions = if large {
            34 + self.random.index(3)
        } else {
            1 + self.random.index(9)
        };
        for _ in 0..transactions {
            if self.random.once_in(4) {
                let identities = [Identity::Ti, Identity::Ta, Identity::Td, Identity::Aa];
                let identity = *self.random.choose(&identities);
                self.add_plain(Stage::Between, identity);
            }
            self.add_transaction();
        }
        if ends || !self.random.once_in(12) {
            self.add_plain(Stage::Between, Identity::Zz);
        }
    }

    /// Adds the row, which is meant for this stage, and perhaps a fault; tells whether the row
    /// was added.
    fn add(&mut self, stage: Stage, sort: Sort, row: Vec<u8>) -> bool {
        if self.random.once_in(32) {
            let fault = if self.random.once_in(3) {
                self.out_of_place(stage)
            } else {
                faulty::spoilt(self.random, sort, row.clone())
            };
            self.rows.push(fault);
            if self.random.once_in(6) {
                return false;
            }
        }
        self.rows.push(row);
        true
    }

    /// A row that does not fit this stage.
    fn out_of_place(&mut self, stage: Stage) -> Vec<u8> {
        loop {
            let sort = lawful::sort(self.random);
            if !stage.takes(sort.identity) {
                return lawful::row(self.random, sort);
            }
        }
    }

    /// Adds a row of which nothing more is asked.
    fn add_plain(&mut self, stage: Stage, identity: Identity) {
        let row = schedules::row(self.random, identity);
        self.add(stage, Sort::plain(identity), row);
    }

    /// Adds the header of a full extract, once in five times after one whose references do not
    /// fit.
    fn add_header(&mut self) {
        if self.random.once_in(5) {
            self.rows.push(rows::unfit_header(self.random));
        }
        let header = rows::full_header(self.random);
        self.add(Stage::Idle, Sort::plain(Identity::Hd), header);
    }

    /// Adds the rows of a transaction; its key is then there or not, as it says.
    fn add_transaction(&mut self) {
        if self.random.once_in(9) {
            let unfit = self.unfit_schedule();
            self.rows.push(unfit);
        }
        let change = *self.random.choose(b"NNNNNRRD");
        let (change, key) = match self.present_key() {
            Some(key) if change != b'N' => (change, key),
            _ => (b'N', self.absent_key()),
        };
        let schedule = rows::basic_schedule(self.random, change, key);
        let mut done = self.add(Stage::Between, sort_of(change), schedule);
        if change != b'D' && key.letter != b'C' {
            done &= self.add_route();
        }
        match (done, change) {
            (false, _) => false,
            (true, b'D') => self.present.remove(&key),
            (true, _) => self.present.insert(key),
        };
    }

    /// A BS row whose days are the wrong way round, or whose key is there or not as it should
    /// not be.
    fn unfit_schedule(&mut self) -> Vec<u8> {
        match (self.random.below(4), self.present_key()) {
            (0, _) => faulty::reversed_days(self.random),
            (1, Some(key)) => rows::basic_schedule(self.random, b'N', key),
            (2, _) => {
                let key = self.absent_key();
                rows::basic_schedule(self.random, b'R', key)
            }
            _ => {
                let key = self.absent_key();
                rows::basic_schedule(self.random, b'D', key)
            }
        }
    }

    fn present_key(&mut self) -> Option<Key> {
        let keys: Vec<Key> = self.present.iter().copied().collect();
        (!keys.is_empty()).then(|| *self.random.choose(&keys))
    }

    fn absent_key(&mut self) -> Key {
        loop {
            let key = Key::any(self.random);
            if !self.present.contains(&key) {
                return key;
            }
        }
    }

    /// Adds the operator in most cases, and the places of the train; tells whether its
    /// destination was added, which once in forty times is missing.
    fn add_route(&mut self) -> bool {
        let route = Route::new(self.random);
        let mut kept = Vec::new();
        let mut stage = Stage::Begun;
        if !self.random.once_in(4) {
            self.add_plain(stage, Identity::Bx);
            stage = Stage::Extra;
        }
        let between = match self.random.below(16) {
            0 => 46 + self.random.index(6),
            1 => 8 + self.random.index(8),
            _ => self.random.index(5),
        };
        self.add_location(&route, &mut kept, stage, Identity::Lo, 0);
        for step in 1..=between {
            stage = Stage::Running;
            if self.random.once_in(12) {
                self.add_plain(stage, Identity::Cr);
                stage = Stage::Changed;
            }
            self.add_location(&route, &mut kept, stage, Identity::Li, step);
        }
        !self.random.once_in(40)
            && self.add_location(&route, &mut kept, Stage::Running, Identity::Lt, between + 1)
    }

    /// Adds a place of the train; one call too many is passed without a public time, and once
    /// in three times it is tried before.
    fn add_location(
        &mut self,
        route: &Route,
        kept: &mut Vec<Tiploc>,
        stage: Stage,
        identity: Identity,
        step: usize,
    ) -> bool {
        let mut row = schedules::location(self.random, route, identity, step);
        if let Some(tiploc) = kept_at(&row) {
            let visits = kept.iter().filter(|&other| *other == tiploc).count();
            if kept.len() < CALLS && visits < VISITS {
                kept.push(tiploc);
            } else {
                if self.random.once_in(3) {
                    self.rows.push(row.clone());
                }
                row = schedules::passed(row, identity);
            }
        }
        self.add(stage, Sort::plain(identity), row)
    }
}

#[cfg(test)]
mod tests {
    use super::*;
    use crate::row::Row;

    #[test]
    fn most_rows_are_read() {
        let rows = extracts(&mut SplitMix::new(4), 400);
        let refused = rows.iter().filter(|row| Row::read(row).is_err()).count();
        assert!(refused > rows.len() / 60 && refused < rows.len() / 30);
        assert!(rows.iter().filter(|row| row.starts_with(b"ZZ")).count() > 350);
    }
}
