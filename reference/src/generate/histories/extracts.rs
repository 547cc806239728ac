//! The lawful course of a history: what comes next by the stage that the extract has come to.

use super::player::{Plan, Player};
use super::pool;
use crate::extract::stage::Stage;
use crate::generate::schedules;
use crate::identity::Identity;
use crate::replay::script::Call;

/// How many places a train goes by that has a call too many.
const LONG: usize = 52;

impl Player<'_> {
    /// Adds so many calls, and the rest of the extract that is open in most cases, but not more
    /// than `most`.
    pub fn play(&mut self, wanted: usize, most: usize) {
        if !self.random.once_in(4) {
            self.turn();
        }
        while self.calls.len() < wanted {
            self.step(most - self.calls.len());
        }
        if !self.random.once_in(6) {
            while self.stage() != Stage::Idle && self.calls.len() + 10 < most {
                self.plan.transactions = 0;
                self.step(0);
            }
        }
        if !self.random.once_in(3) {
            self.turn();
        }
        for _ in 0..self.random.index(4) {
            self.tell();
        }
        for _ in 0..self.random.index(4) {
            self.page();
        }
    }

    /// Adds what comes next, and perhaps a fault or a question before it. There is room for so
    /// many calls.
    fn step(&mut self, room: usize) {
        if self.random.once_in(9) {
            self.fault();
        }
        if self.random.once_in(12) {
            self.aside();
        }
        self.perhaps_page();
        if self.random.once_in(150) {
            self.call(Call::Abandon);
        }
        match self.stage() {
            Stage::Idle => self.begin(room),
            Stage::Between => self.between(room),
            Stage::Begun if !self.random.once_in(4) => self.add_plain(Identity::Bx),
            Stage::Begun | Stage::Extra => self.add_location(Identity::Lo),
            Stage::Running => self.on_the_way(),
            Stage::Changed => self.add_location(Identity::Li),
            Stage::Complete => self.end(),
        }
    }

    fn aside(&mut self) {
        match self.random.below(8) {
            0 | 1 => self.turn(),
            2 => {
                self.call(Call::Tally);
            }
            _ => self.tell(),
        }
    }

    fn begin(&mut self, room: usize) {
        if self.random.once_in(5) {
            self.unfit_header();
        }
        let many = room > 50 && self.random.once_in(30);
        self.plan = Plan {
            transactions: match many {
                true => 34,
                false => *self.random.choose(&[0, 1, 1, 2, 2, 3, 3, 4, 5, 7]),
            },
            many,
            ..Plan::default()
        };
        let header = self.lawful_header();
        self.hand(header);
    }

    fn between(&mut self, room: usize) {
        if self.random.once_in(12) {
            let identities = [Identity::Ti, Identity::Ta, Identity::Td, Identity::Aa];
            let identity = *self.random.choose(&identities);
            self.add_plain(identity);
        }
        match self.plan.transactions.checked_sub(1) {
            Some(left) => {
                self.plan.transactions = left;
                self.add_schedule(room);
            }
            None => self.add_plain(Identity::Zz),
        }
    }

    /// Adds the BS row of a transaction.
    fn add_schedule(&mut self, room: usize) {
        let change = if self.is_full() && !self.random.once_in(6) {
            *self.random.choose(b"RRDDD")
        } else {
            *self.random.choose(b"NNNNNNRRD")
        };
        let (change, mut key) = match self.present_key() {
            Some(key) if change != b'N' => (change, key),
            _ => (b'N', self.absent_key()),
        };
        if self.plan.many && change == b'N' {
            key = self.absent_cancellation(key);
        }
        let long = room > LONG + 40 && !self.plan.many && self.random.once_in(40);
        self.plan.long = long.then_some(0);
        self.plan.locations = if long {
            LONG
        } else {
            1 + self.random.index(3) + self.random.index(2)
        };
        let row = pool::basic_schedule(self.random, change, key);
        self.hand(row);
    }

    pub fn add_plain(&mut self, identity: Identity) {
        let row = pool::plain(self.random, identity);
        self.hand(row);
    }

    fn on_the_way(&mut self) {
        if self.plan.locations == 0 {
            self.add_location(Identity::Lt);
        } else if self.random.once_in(14) {
            self.add_plain(Identity::Cr);
        } else {
            self.add_location(Identity::Li);
        }
    }

    /// Adds a place of the train; one that is refused is most often passed without a public time.
    fn add_location(&mut self, identity: Identity) {
        self.plan.locations = self.plan.locations.saturating_sub(1);
        let row = match &mut self.plan.long {
            None => {
                let tiploc = self.next_station();
                pool::location(self.random, identity, &tiploc)
            }
            Some(step) => {
                *step += 1;
                let tiploc = format!("{:7}", format!("T{}", *step % 25));
                pool::location(self.random, identity, tiploc.as_bytes())
            }
        };
        if !self.hand(row.clone()) && !self.random.once_in(3) {
            self.hand(schedules::passed(row, identity));
        }
    }

    /// Confirms the extract in most cases.
    fn end(&mut self) {
        let done = match self.random.below(10) {
            0 => self.call(Call::Abandon),
            _ => self.call(Call::Confirm),
        };
        if !done {
            self.call(Call::Abandon);
        }
        if self.random.once_in(2) {
            self.tell();
        }
    }
}
