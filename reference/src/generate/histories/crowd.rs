//! An extract of so many trains at one station that its board has more lines than a page.

use super::player::Player;
use super::pool;
use crate::identity::Identity;
use crate::replay::script::Call;

impl Player<'_> {
    /// Opens and confirms an extract of many trains that run from one station on one day, and turns
    /// the board to these.
    pub fn crowd(&mut self) {
        let header = self.lawful_header();
        self.hand(header);
        let station = self.pool.station(self.random);
        let count = 11 + self.random.below(6);
        for number in 0..count {
            self.train_of_crowd(number, &station);
        }
        self.add_plain(Identity::Zz);
        if !self.call(Call::Confirm) {
            self.call(Call::Abandon);
        }
        let day = self.pool.monday();
        self.call(Call::Turn { day, station });
        for _ in 0..1 + self.random.index(3) {
            self.page();
        }
    }

    /// Adds the rows of a train that departs from the station, as its origin or on the way, unless
    /// there is no room for it.
    fn train_of_crowd(&mut self, number: u32, station: &[u8]) {
        let row = self.pool.schedule_of_crowd(self.random, number);
        if !self.hand(row) {
            return;
        }
        if !self.random.once_in(3) {
            self.add_plain(Identity::Bx);
        }
        let mut stops = vec![(Identity::Lo, station.to_vec())];
        if self.random.once_in(4) {
            stops = vec![
                (Identity::Lo, self.pool.station(self.random)),
                (Identity::Li, station.to_vec()),
            ];
        }
        stops.push((Identity::Lt, b"DUNMERE".to_vec()));
        for (identity, tiploc) in stops {
            let row = pool::location(self.random, identity, &tiploc);
            self.hand(row);
        }
    }
}
