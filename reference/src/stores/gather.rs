//! Rows gathered into transactions.

use super::record::{Key, Record};
use crate::forms::{PublicTime, StpLetter};
use crate::row::{self, Call, Change, Destination, Origin, Row};

/// What a store is asked to do.
#[derive(Debug)]
pub enum Transaction {
    Put(Record),
    Remove(Key),
}

/// Takes rows one after another, and holds the record that is begun and not ended.
#[derive(Default)]
pub struct Gatherer {
    begun: Option<Record>,
}

impl Gatherer {
    /// The record that is begun and not ended, if there is one.
    pub fn begun(&self) -> Option<&Record> {
        self.begun.as_ref()
    }

    /// Takes the next row, and gives the transaction that it completes, if it does.
    pub fn take(&mut self, row: Row) -> Option<Transaction> {
        match row {
            Row::Schedule(schedule) => return self.take_schedule(schedule),
            Row::Destination(destination) => return self.end(destination),
            Row::Extra { operator } => {
                if let Some(record) = &mut self.begun {
                    record.operator = operator.0;
                }
            }
            Row::Origin(origin) => self.add(call_at_origin(origin)),
            Row::Call(call) => self.add(call),
            Row::Header(_) | Row::Unread(_) => {}
        }
        None
    }

    /// What is begun is dropped. A removal and a cancellation are done at once; any other
    /// schedule begins a record.
    fn take_schedule(&mut self, schedule: row::Schedule) -> Option<Transaction> {
        let key = Key::of(&schedule);
        self.begun = None;
        match schedule.change {
            Change::Deleted => Some(Transaction::Remove(key)),
            Change::New(running) | Change::Revised(running) => {
                let record = Record::new(key, running);
                if key.stp == StpLetter::Cancellation {
                    return Some(Transaction::Put(record));
                }
                self.begun = Some(record);
                None
            }
        }
    }

    fn add(&mut self, call: Call) {
        if let Some(record) = &mut self.begun {
            record.add(call);
        }
    }

    /// Ends the record that is begun, if any, with its last call and its destination.
    fn end(&mut self, destination: Destination) -> Option<Transaction> {
        let mut record = self.begun.take()?;
        record.destination.clone_from(&destination.place.tiploc.0);
        record.add(call_at_destination(destination));
        Some(Transaction::Put(record))
    }
}

fn call_at_origin(origin: Origin) -> Call {
    Call {
        place: origin.place,
        arrival: PublicTime::None,
        departure: origin.departure,
        platform: origin.platform,
    }
}

fn call_at_destination(destination: Destination) -> Call {
    Call {
        place: destination.place,
        arrival: destination.arrival,
        departure: PublicTime::None,
        platform: destination.platform,
    }
}
