//! The controller: it takes the rows of an extract stage by stage over a store, and does what
//! they ask for when the extract is confirmed.

use super::conditions;
use super::pending::{Overlay, Pending};
use super::stage::Stage;
use crate::board::turned::Board;
use crate::fields::Fields;
use crate::forms::{FileReference, LastReference};
use crate::identity::Identity;
use crate::refusal::{ExtractFault, Reason, Refusal};
use crate::row::{Change, Row};
use crate::stores::gather::Gatherer;
use crate::stores::record::Record;
use crate::stores::store::Store;
use std::{fmt, mem};

/// The reference in force is seven blanks, as in a new controller.
const NO_REFERENCE: &str = "       ";

pub struct Controller {
    store: Store,
    in_force: LastReference,
    /// How many transactions were ever confirmed; it stays at the largest number.
    tally: u32,
    open: Open,
}

/// What is dropped with an extract that is abandoned.
#[derive(Default)]
struct Open {
    stage: Stage,
    rows: usize,
    current: Option<FileReference>,
    pending: Vec<Pending>,
    gatherer: Gatherer,
    /// Whether the last BS row had `R`.
    revises: bool,
}

impl Controller {
    pub fn new(store: Store) -> Controller {
        Controller {
            store,
            in_force: LastReference(NO_REFERENCE.to_owned()),
            tally: 0,
            open: Open::default(),
        }
    }

    pub fn store(&self) -> &Store {
        &self.store
    }

    pub fn tally(&self) -> u32 {
        self.tally
    }

    #[cfg(test)]
    pub fn set_tally(&mut self, tally: u32) {
        self.tally = tally;
    }

    pub fn stage(&self) -> Stage {
        self.open.stage
    }

    /// How many rows of the open extract were taken.
    pub fn rows(&self) -> usize {
        self.open.rows
    }

    pub fn pending(&self) -> &[Pending] {
        &self.open.pending
    }

    pub fn in_force(&self) -> &LastReference {
        &self.in_force
    }

    pub fn capacity(&self) -> usize {
        self.store.capacity()
    }

    /// The record that is begun and not ended, if there is one.
    pub fn begun(&self) -> Option<&Record> {
        self.open.gatherer.begun()
    }

    /// The store's map with the pending transactions done to it in order.
    pub fn overlay(&self) -> Overlay<'_> {
        let mut overlay = Overlay::new();
        for schedule in self.store.schedules() {
            overlay.insert(schedule.key(), schedule);
        }
        for pending in self.pending() {
            pending.apply(&mut overlay);
        }
        overlay
    }

    /// Takes the HD row of an extract.
    pub fn open(&mut self, bytes: &[u8]) -> Result<Identity, ExtractFault> {
        self.take(bytes, |identity| identity == Identity::Hd)
    }

    /// Takes any other row.
    pub fn row(&mut self, bytes: &[u8]) -> Result<Identity, ExtractFault> {
        self.take(bytes, |identity| identity != Identity::Hd)
    }

    /// Hands a row of a file on: one that begins as a header by the call open, any other by row.
    pub fn hand(&mut self, bytes: &[u8]) -> Result<Identity, ExtractFault> {
        if bytes.starts_with(Identity::Hd.code().as_bytes()) {
            self.open(bytes)
        } else {
            self.row(bytes)
        }
    }

    /// Drops the open extract.
    pub fn abandon(&mut self) -> Result<(), ExtractFault> {
        if self.stage() == Stage::Idle {
            return Err(ExtractFault::of_call(Reason::Stage));
        }
        self.open = Open::default();
        Ok(())
    }

    /// Does the pending transactions to the store in order, and lets the board follow.
    pub fn confirm(&mut self, board: &mut Board) -> Result<(), ExtractFault> {
        if self.stage() != Stage::Complete {
            return Err(ExtractFault::of_call(Reason::Stage));
        }
        if board.is_too_small(&self.store) {
            return Err(ExtractFault::of_call(Reason::Slots));
        }
        let Open {
            current, pending, ..
        } = mem::take(&mut self.open);
        let FileReference(current) = current.expect("an extract begins with its header");
        self.in_force = LastReference(current);
        for pending in pending {
            pending.done_to(&mut self.store);
            self.tally = self.tally.saturating_add(1);
        }
        board.follow(&self.store);
        Ok(())
    }

    /// Turns a board to the station and day, from the store without what is pending.
    pub fn turn(&self, board: &mut Board, station: &[u8], day: u32) -> Result<(), ExtractFault> {
        board
            .turn(&self.store, station, day)
            .map_err(ExtractFault::of_call)
    }

    /// Takes a row whose identity the call is for.
    fn take(
        &mut self,
        bytes: &[u8],
        is_for: impl Fn(Identity) -> bool,
    ) -> Result<Identity, ExtractFault> {
        let number = self.rows() + 1;
        let told = |refusal| ExtractFault {
            refusal,
            row: number,
        };
        let (identity, row) = self.judged(bytes, is_for).map_err(told)?;
        self.open.add(row);
        Ok(identity)
    }

    /// The row, or the uppermost condition that holds of it.
    fn judged(
        &self,
        bytes: &[u8],
        is_for: impl Fn(Identity) -> bool,
    ) -> Result<(Identity, Row), Refusal> {
        let fields = Fields::of(bytes)?;
        let identity = fields.identity;
        if !is_for(identity) || !self.stage().takes(identity) {
            return Err(fields.refused(Reason::Stage, 1));
        }
        let row = Row::of(&fields)?;
        match conditions::uppermost(self, &row) {
            Some((reason, column)) => Err(fields.refused(reason, column)),
            None => Ok((identity, row)),
        }
    }
}

impl Open {
    /// Adds a row that no condition holds of.
    fn add(&mut self, row: Row) {
        self.rows += 1;
        self.stage = Stage::after(&row);
        if let Row::Header(header) = &row {
            self.current = Some(header.current.clone());
        }
        if let Row::Schedule(schedule) = &row {
            self.revises = matches!(schedule.change, Change::Revised(_));
        }
        if let Some(transaction) = self.gatherer.take(row) {
            self.pending.push(Pending::of(transaction, self.revises));
        }
    }
}

impl fmt::Display for Controller {
    fn fmt(&self, f: &mut fmt::Formatter<'_>) -> fmt::Result {
        let (stage, rows, pending) = (self.stage(), self.rows(), self.pending().len());
        write!(f, "stage {stage}, rows {rows}, pending {pending}")
    }
}
