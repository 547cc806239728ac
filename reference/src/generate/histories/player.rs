//! A controller that is played on: the calls so far, what came of them, and what is planned.

use super::pool::{self, Pool};
use crate::board::turned::Board;
use crate::extract::stage::Stage;
use crate::forms::{Form, Tiploc};
use crate::generate::splitmix::SplitMix;
use crate::identity::Identity;
use crate::replay::script::Call;
use crate::replay::side::{Answer, Side};
use crate::stores::record::{Key, VISITS};
use crate::stores::store::Store;

/// The references that extracts have.
const REFERENCES: [&str; 5] = ["DFROC1A", "DFROC1B", "DFROC1C", "0000000", "ZZZZZZ9"];

pub struct Player<'a> {
    pub random: &'a mut SplitMix,
    pub pool: &'a Pool,
    pub side: Side,
    pub calls: Vec<Call>,
    pub plan: Plan,
    told: Told,
    open: Vec<Vec<u8>>,
}

/// What the extract and the train that are begun are still to have.
#[derive(Default)]
pub struct Plan {
    pub transactions: usize,
    /// The extract is of very many transactions, each of one row.
    pub many: bool,
    pub locations: usize,
    /// The train goes by very many places, this many so far.
    pub long: Option<usize>,
}

/// What was confirmed, and where the board was turned to last.
#[derive(Clone, Default)]
pub struct Told {
    /// The rows of each extract that was confirmed.
    pub extracts: Vec<Vec<Vec<u8>>>,
    pub turn: Option<Call>,
}

impl<'a> Player<'a> {
    pub fn new(
        random: &'a mut SplitMix,
        pool: &'a Pool,
        slots: usize,
        line_slots: usize,
    ) -> Player<'a> {
        Player {
            random,
            pool,
            side: Side::new(Store::new(slots), line_slots),
            calls: Vec::new(),
            plan: Plan::default(),
            told: Told::default(),
            open: Vec::new(),
        }
    }

    pub fn told(&self) -> Told {
        self.told.clone()
    }

    pub fn stage(&self) -> Stage {
        self.side.controller.stage()
    }

    /// Adds the call, and tells whether it was done.
    pub fn call(&mut self, call: Call) -> bool {
        let done = !matches!(self.side.answer(&call), Answer::Refused(_));
        if done {
            self.note(&call);
        }
        self.calls.push(call);
        done
    }

    /// Keeps what a call that was done changes.
    fn note(&mut self, call: &Call) {
        match call {
            Call::Open(row) | Call::Row(row) => self.open.push(row.clone()),
            Call::Confirm => self.told.extracts.push(std::mem::take(&mut self.open)),
            Call::Abandon => self.open.clear(),
            Call::Turn { .. } => self.told.turn = Some(call.clone()),
            Call::Page { .. } | Call::Tell(_) | Call::Tally => {}
        }
    }

    /// Adds the row by the call that is for it.
    pub fn hand(&mut self, row: Vec<u8>) -> bool {
        let call = if row.starts_with(Identity::Hd.code().as_bytes()) {
            Call::Open(row)
        } else {
            Call::Row(row)
        };
        self.call(call)
    }

    /// Turns the board to a station and day of the pool, the last of a few that has no lines or the
    /// first that has.
    pub fn turn(&mut self) {
        let mut trial = Board::new(2 * self.side.controller.capacity());
        let tries = 1 + self.random.index(6);
        let mut turn = self.pool.turn(self.random);
        for _ in 1..tries {
            let shows = self.side.controller.turn(&mut trial, &turn.1, turn.0);
            if shows.is_ok() && !trial.lines().is_empty() {
                break;
            }
            turn = self.pool.turn(self.random);
        }
        let (day, station) = turn;
        self.call(Call::Turn { day, station });
    }

    /// Asks for a line that is there, or the one after the last, or far from any.
    pub fn tell(&mut self) {
        let lines = self.side.board.lines().len();
        let place = match self.random.below(12) {
            0 => *self
                .random
                .choose(&[65_535, 4_294_967_296, u64::MAX, u64::MAX - 1]),
            1 | 2 => lines as u64,
            3 => lines as u64 + 1,
            _ => self.random.index(lines.max(1)) as u64,
        };
        self.call(Call::Tell(place));
    }

    /// A station where the train that is begun may call once more, but for once in a few times.
    pub fn next_station(&mut self) -> Vec<u8> {
        let mut station = self.pool.station(self.random);
        for _ in 0..4 {
            let begun = self.side.controller.begun();
            let visits = Tiploc::read(&station)
                .zip(begun)
                .map(|(tiploc, begun)| begun.visits(&tiploc));
            if visits.is_none_or(|visits| visits < VISITS) || self.random.once_in(12) {
                break;
            }
            station = self.pool.station(self.random);
        }
        station
    }

    /// A reference that is not in force.
    pub fn other_reference(&mut self) -> &'static str {
        loop {
            let reference = *self.random.choose(&REFERENCES);
            if self.side.controller.in_force().0 != reference {
                return reference;
            }
        }
    }

    pub fn lawful_header(&mut self) -> Vec<u8> {
        let current = self.other_reference();
        let last = self.side.controller.in_force().0.clone();
        let kind = if last.trim().is_empty() { b'F' } else { b'U' };
        pool::header(self.random, current, &last, kind)
    }

    pub fn present_key(&mut self) -> Option<Key> {
        let keys: Vec<Key> = self.side.controller.overlay().into_keys().collect();
        (!keys.is_empty()).then(|| *self.random.choose(&keys))
    }

    /// A key that is not in the overlay, if a few tries find one.
    pub fn absent_key(&mut self) -> Key {
        let mut key = self.pool.key(self.random);
        for _ in 0..20 {
            if !self.side.controller.overlay().contains_key(&key) {
                break;
            }
            key = self.pool.key(self.random);
        }
        key
    }

    pub fn is_full(&self) -> bool {
        let controller = &self.side.controller;
        controller.overlay().len() == controller.capacity()
    }
}
