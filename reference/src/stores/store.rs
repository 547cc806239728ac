//! A store: a map of schedules that never has more keys than its capacity.

use super::record::{Key, Schedule};
use std::collections::BTreeMap;
use std::fmt;

/// The largest capacity, however many slots there are.
const LARGEST: usize = 65_535;

/// What comes of a transaction.
#[derive(Clone, Copy, Debug, PartialEq, Eq)]
pub enum Answer {
    Done,
    Full,
    NotASchedule,
    Yes,
    No,
}

impl fmt::Display for Answer {
    fn fmt(&self, f: &mut fmt::Formatter<'_>) -> fmt::Result {
        f.write_str(match self {
            Answer::Done => "done",
            Answer::Full => "refused, the store is full",
            Answer::NotASchedule => "not a schedule",
            Answer::Yes => "yes",
            Answer::No => "no",
        })
    }
}

#[derive(Clone)]
pub struct Store {
    capacity: usize,
    schedules: Schedules,
}

/// Schedules by their keys, or in any order.
#[derive(Clone)]
enum Schedules {
    Table(BTreeMap<Key, Schedule>),
    Bag(Vec<Schedule>),
}

impl Schedules {
    fn has(&self, key: Key) -> bool {
        match self {
            Schedules::Table(map) => map.contains_key(&key),
            Schedules::Bag(bag) => bag.iter().any(|schedule| schedule.key() == key),
        }
    }

    /// Puts the schedule in the place of one with its key, if there is one.
    fn set(&mut self, schedule: Schedule) {
        match self {
            Schedules::Table(map) => {
                map.insert(schedule.key(), schedule);
            }
            Schedules::Bag(bag) => {
                bag.retain(|other| other.key() != schedule.key());
                bag.push(schedule);
            }
        }
    }

    fn remove(&mut self, key: Key) {
        match self {
            Schedules::Table(map) => {
                map.remove(&key);
            }
            Schedules::Bag(bag) => bag.retain(|schedule| schedule.key() != key),
        }
    }
}

impl Store {
    /// An empty store over so many slots that keeps its schedules in key order.
    pub fn new(slots: usize) -> Store {
        Store {
            capacity: slots.min(LARGEST),
            schedules: Schedules::Table(BTreeMap::new()),
        }
    }

    /// An empty store over so many slots that keeps its schedules in any order.
    pub fn bag(slots: usize) -> Store {
        Store {
            capacity: slots.min(LARGEST),
            schedules: Schedules::Bag(Vec::new()),
        }
    }

    pub fn capacity(&self) -> usize {
        self.capacity
    }

    pub fn count(&self) -> usize {
        match &self.schedules {
            Schedules::Table(map) => map.len(),
            Schedules::Bag(bag) => bag.len(),
        }
    }

    /// The schedules, in key order but for a bag's.
    pub fn schedules(&self) -> impl Iterator<Item = &Schedule> {
        let (table, bag) = match &self.schedules {
            Schedules::Table(map) => (Some(map.values()), None),
            Schedules::Bag(bag) => (None, Some(bag.iter())),
        };
        table.into_iter().flatten().chain(bag.into_iter().flatten())
    }

    /// Replaces the schedule of a key that is there, and adds one that is not while there is
    /// room.
    pub fn put(&mut self, schedule: Schedule) -> Answer {
        if !self.schedules.has(schedule.key()) && self.count() == self.capacity {
            return Answer::Full;
        }
        self.schedules.set(schedule);
        Answer::Done
    }

    pub fn remove(&mut self, key: Key) -> Answer {
        if !self.schedules.has(key) {
            return Answer::No;
        }
        self.schedules.remove(key);
        Answer::Yes
    }
}

#[cfg(test)]
mod tests {
    use super::*;
    use crate::calendar::Date;
    use crate::forms::{DaysRun, End, Label, StpLetter, Uid};
    use crate::row::Running;
    use crate::stores::record::Record;

    fn key(uid: u32) -> Key {
        Key {
            uid: Uid(uid),
            first: Date::at_number(7),
            stp: StpLetter::Permanent,
        }
    }

    /// A schedule that runs up to the day of this number.
    fn schedule(uid: u32, last: u32) -> Schedule {
        let running = Running {
            end: End::LastDay(Date::at_number(last)),
            days: DaysRun([true; 7]),
            identity: Label("1A23".to_owned()),
        };
        Schedule::check(Record::new(key(uid), running)).unwrap()
    }

    #[test]
    fn a_full_store_refuses_a_new_key_and_takes_a_replacement() {
        for mut store in [Store::new(1), Store::bag(1)] {
            assert_eq!(store.put(schedule(5, 8)), Answer::Done);
            assert_eq!(store.put(schedule(4, 8)), Answer::Full);
            assert_eq!(store.put(schedule(5, 9)), Answer::Done);
            let told: Vec<String> = store.schedules().map(Schedule::to_string).collect();
            assert!(told.len() == 1 && told[0].starts_with("A00005 P day 7 to day 9, "));
        }
    }

    #[test]
    fn a_key_is_removed_once() {
        for mut store in [Store::new(1), Store::bag(1)] {
            store.put(schedule(5, 8));
            assert_eq!(store.remove(key(4)), Answer::No);
            assert_eq!(store.remove(key(5)), Answer::Yes);
            assert_eq!(store.remove(key(5)), Answer::No);
            assert_eq!(store.put(schedule(4, 8)), Answer::Done);
            assert_eq!(store.count(), 1);
        }
    }

    #[test]
    fn the_capacity_that_is_told() {
        assert_eq!(Store::new(65_536).capacity(), 65_535);
        assert_eq!(Store::new(0).capacity(), 0);
    }
}
