//! Transactions that wait, and the overlay that they make of a store's map.

use crate::stores::gather::Transaction;
use crate::stores::record::{Key, Schedule};
use crate::stores::store::{Answer, Store};
use std::collections::BTreeMap;
use std::fmt;

/// What the overlay has under each key.
pub type Overlay<'a> = BTreeMap<Key, &'a Schedule>;

#[derive(Debug)]
pub enum Pending {
    New(Schedule),
    Revised(Schedule),
    Deleted(Key),
}

impl Pending {
    /// The transaction that rows were gathered into; `revises` tells `R` from `N`.
    pub fn of(transaction: Transaction, revises: bool) -> Pending {
        match transaction {
            Transaction::Remove(key) => Pending::Deleted(key),
            Transaction::Put(record) => {
                let schedule = Schedule::check(record).expect("rows that are taken make schedules");
                if revises {
                    Pending::Revised(schedule)
                } else {
                    Pending::New(schedule)
                }
            }
        }
    }

    /// Does the transaction to the overlay.
    pub fn apply<'a>(&'a self, overlay: &mut Overlay<'a>) {
        match self {
            Pending::New(schedule) | Pending::Revised(schedule) => {
                overlay.insert(schedule.key(), schedule);
            }
            Pending::Deleted(key) => {
                overlay.remove(key);
            }
        }
    }
}

impl Pending {
    /// Does the transaction to the store, which has room for it.
    pub fn done_to(self, store: &mut Store) {
        let answer = match self {
            Pending::New(schedule) | Pending::Revised(schedule) => store.put(schedule),
            Pending::Deleted(key) => store.remove(key),
        };
        assert!(
            matches!(answer, Answer::Done | Answer::Yes),
            "rows that are taken fit the store: {answer}"
        );
    }
}

impl fmt::Display for Pending {
    fn fmt(&self, f: &mut fmt::Formatter<'_>) -> fmt::Result {
        match self {
            Pending::New(schedule) => write!(f, "new {schedule}"),
            Pending::Revised(schedule) => write!(f, "revised {schedule}"),
            Pending::Deleted(key) => write!(f, "deleted {key}"),
        }
    }
}
