//! Faults planted in a history: calls of every sort that are refused, or might be.

use super::player::Player;
use super::pool;
use crate::calendar::DAYS;
use crate::extract::stage::Stage;
use crate::forms::StpLetter;
use crate::generate::faulty;
use crate::generate::lawful;
use crate::generate::spec::Sort;
use crate::identity::Identity;
use crate::replay::script::Call;
use crate::stores::record::Key;

const BLANK: &str = "       ";

impl Player<'_> {
    /// Adds a call with a fault.
    pub fn fault(&mut self) {
        match self.random.below(16) {
            0..=2 => self.spoilt_row(),
            3 => self.row_out_of_place(),
            4 => {
                self.call(Call::Confirm);
            }
            5 => self.row_by_the_other_call(),
            6 | 7 => self.any_bytes(),
            8 => self.unfit_turn(),
            9 if self.stage() == Stage::Idle => {
                self.call(Call::Abandon);
            }
            10 if self.stage() == Stage::Idle => self.unfit_header(),
            _ if self.stage() == Stage::Between => self.unfit_schedule(),
            _ => self.spoilt_row(),
        }
    }

    /// Adds a row that fits the stage, if any does, but for a fault in it.
    fn spoilt_row(&mut self) {
        let stage = self.stage();
        let fits = |identity: &Identity| stage.takes(*identity) || stage == Stage::Complete;
        let identities: Vec<Identity> = Identity::ALL.into_iter().filter(fits).collect();
        let identity = *self.random.choose(&identities);
        let sort = Sort {
            identity,
            deleted: identity == Identity::Bs && self.random.once_in(3),
        };
        let row = lawful::row(self.random, sort);
        let row = faulty::spoilt(self.random, sort, row);
        self.by_either_call(row, identity == Identity::Hd);
    }

    fn by_either_call(&mut self, row: Vec<u8>, opens: bool) {
        let call = if opens {
            Call::Open(row)
        } else {
            Call::Row(row)
        };
        self.call(call);
    }

    fn row_out_of_place(&mut self) {
        let sort = loop {
            let sort = lawful::sort(self.random);
            if !self.stage().takes(sort.identity) {
                break sort;
            }
        };
        let row = lawful::row(self.random, sort);
        self.hand(row);
    }

    /// Adds a header by row, or another row by open.
    fn row_by_the_other_call(&mut self) {
        if self.random.once_in(2) {
            let header = self.lawful_header();
            self.call(Call::Row(header));
        } else {
            let sort = lawful::sort(self.random);
            let row = lawful::row(self.random, sort);
            self.call(Call::Open(row));
        }
    }

    /// Adds a row of any bytes of any length, or a lawful one with any byte somewhere.
    fn any_bytes(&mut self) {
        let all: Vec<u8> = (0..=255).collect();
        let opens = self.random.once_in(3);
        let row = if self.random.once_in(2) {
            let length = *self.random.choose(&[0, 1, 2, 79, 80, 80, 81, 200]);
            self.random.bytes(length, &all)
        } else {
            let sort = lawful::sort(self.random);
            let mut row = lawful::row(self.random, sort);
            let index = self.random.index(row.len());
            row[index] = *self.random.choose(&all);
            row
        };
        self.by_either_call(row, opens);
    }

    /// Adds a turn to what is no station or no day.
    fn unfit_turn(&mut self) {
        let all: Vec<u8> = (0..=255).collect();
        let mut station = self.pool.station(self.random);
        let mut day = self.pool.day(self.random);
        match self.random.below(6) {
            0 => day = *self.random.choose(&[DAYS, DAYS + 1, 65_536, u32::MAX]),
            1 => station = self.random.bytes(7, &all),
            2 => station.truncate(self.random.index(7)),
            3 => station.push(b' '),
            4 => station[self.random.index(7)] = *self.random.choose(b" -a\n\\"),
            _ => {
                let length = self.random.index(20);
                station = self.random.bytes(length, &all);
            }
        }
        self.call(Call::Turn { day, station });
    }

    /// Adds a header whose references do not fit; where no reference is in force yet, one of the
    /// ways does.
    pub fn unfit_header(&mut self) {
        let in_force = self.side.controller.in_force().0.clone();
        let (current, other) = (self.other_reference(), self.other_reference());
        let has_reference = in_force != BLANK;
        let header = match self.random.below(5) {
            0 => pool::header(self.random, current, other, b'U'),
            1 if has_reference => pool::header(self.random, &in_force, &in_force, b'U'),
            2 if has_reference => pool::header(self.random, current, &in_force, b'F'),
            3 if has_reference => pool::header(self.random, current, BLANK, b'F'),
            _ => pool::header(self.random, current, BLANK, b'U'),
        };
        self.hand(header);
    }

    /// Adds a BS row whose days are the wrong way round, which has no first day, or whose key is
    /// there or not as it should not be, or for which the store has no room.
    fn unfit_schedule(&mut self) {
        let row = match (self.random.below(6), self.present_key()) {
            (0, _) => faulty::reversed_days(self.random),
            (5, _) => faulty::no_first_day(self.random),
            (1 | 2, Some(key)) => pool::basic_schedule(self.random, b'N', key),
            (3, _) if self.is_full() => {
                let key = self.absent_key();
                pool::basic_schedule(self.random, b'N', key)
            }
            _ => {
                let change = *self.random.choose(b"RD");
                let key = self.absent_key();
                pool::basic_schedule(self.random, change, key)
            }
        };
        self.hand(row);
    }

    /// The key, or one like it, of a cancellation that is not in the overlay if a few tries find
    /// one.
    pub fn absent_cancellation(&mut self, mut key: Key) -> Key {
        for _ in 0..20 {
            key.stp = StpLetter::Cancellation;
            if !self.side.controller.overlay().contains_key(&key) {
                break;
            }
            key = self.pool.key(self.random);
        }
        key
    }
}
