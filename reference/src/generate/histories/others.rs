//! The transactions of one controller done to another, with the trains in another order.

use super::player::{Player, Told};
use crate::identity::Identity;
use crate::replay::script::Call;
use std::collections::BTreeMap;
use std::mem;

/// The rows of transactions in order, those of one train together.
type Trains = BTreeMap<Vec<u8>, Vec<Vec<Vec<u8>>>>;

impl Player<'_> {
    /// Confirms the same extracts with their trains in another order, and turns the board to the
    /// same station and day, before or after.
    pub fn play_again(&mut self, told: &Told) {
        let turn_at = self.random.index(told.extracts.len() + 1);
        for (number, extract) in told.extracts.iter().enumerate() {
            if number == turn_at {
                self.turn_again(told);
            }
            let reordered = self.reordered(extract);
            if !self.confirm_again(&reordered) {
                self.call(Call::Abandon);
                self.confirm_again(extract);
            }
        }
        if turn_at == told.extracts.len() {
            self.turn_again(told);
        }
        for _ in 0..self.random.index(4) {
            self.tell();
        }
        for _ in 0..self.random.index(4) {
            self.page();
        }
    }

    fn turn_again(&mut self, told: &Told) {
        if let Some(turn) = &told.turn {
            self.call(turn.clone());
        }
    }

    /// Hands the rows on and confirms them, unless one of them is refused.
    fn confirm_again(&mut self, rows: &[Vec<u8>]) -> bool {
        for row in rows {
            if self.random.once_in(40) {
                self.tell();
            }
            self.perhaps_page();
            if !self.hand(row.clone()) {
                return false;
            }
        }
        self.call(Call::Confirm)
    }

    /// The rows of an extract with the trains in another order, one by one or mixed, and the
    /// transactions of each in the same order.
    fn reordered(&mut self, extract: &[Vec<u8>]) -> Vec<Vec<u8>> {
        let [header, between @ .., trailer] = extract else {
            return extract.to_vec();
        };
        let mut trains = trains(between);
        let mixed = self.random.once_in(2);
        let mut rows = vec![header.clone()];
        while !trains.is_empty() {
            let names: Vec<Vec<u8>> = trains.keys().cloned().collect();
            let name = self.random.choose(&names);
            let transactions = trains.remove(name).unwrap_or_default();
            let taken = if mixed { 1 } else { transactions.len() };
            rows.extend(transactions[..taken].concat());
            if taken < transactions.len() {
                trains.insert(name.clone(), transactions[taken..].to_vec());
            }
        }
        rows.push(trailer.clone());
        rows
    }
}

/// The rows from BS on of each transaction under the UID of its train; other rows are left out.
fn trains(rows: &[Vec<u8>]) -> Trains {
    let mut trains = Trains::new();
    let mut transaction: Vec<Vec<u8>> = Vec::new();
    for row in rows {
        match Identity::of(&row[..2]) {
            Some(Identity::Ti | Identity::Ta | Identity::Td | Identity::Aa) => continue,
            Some(Identity::Bs) => add(&mut trains, mem::take(&mut transaction)),
            _ => {}
        }
        transaction.push(row.clone());
    }
    add(&mut trains, transaction);
    trains
}

fn add(trains: &mut Trains, transaction: Vec<Vec<u8>>) {
    if let Some(schedule) = transaction.first() {
        let uid = schedule[3..9].to_vec();
        trains.entry(uid).or_default().push(transaction);
    }
}
