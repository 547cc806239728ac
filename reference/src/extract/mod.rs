//! Extracts taken stage by stage over a store, told and dropped.

mod conditions;
pub mod controller;
mod pending;
pub mod stage;

use crate::board;
use crate::files;
use crate::stores;
use crate::stores::store::Store;
use crate::tally::Tally;
use conditions::TRANSACTIONS;
use controller::Controller;
use stage::Stage;
use std::ffi::{OsStr, OsString};
use std::io::{self, Write};

/// What the command line asks for: a store and board, and the file that fills the store, if there is one.
pub struct Request {
    pub board: board::Request,
    pub base: Option<OsString>,
}

impl Request {
    /// Fills a store from the base, and prints what becomes of the rows of these files over it.
    pub fn print(&self, names: &[OsString], out: &mut impl Write) -> io::Result<()> {
        let (store, refused) = stores::filled(self.board.slots, self.base.as_slice())?;
        out.write_all(b"extract ")?;
        self.board.print_store(&store, refused, out)?;
        self.print_files(store, names, out)
    }

    fn print_files(
        &self,
        store: Store,
        names: &[OsString],
        out: &mut impl Write,
    ) -> io::Result<()> {
        let mut controller = Controller::new(store);
        let mut total = Tally::default();
        for name in names {
            let bytes = files::read(name)?;
            total += self.print_file(&mut controller, name, &bytes, out)?;
        }
        writeln!(out, "files {}, {}", names.len(), total.told("done"))?;
        total.print_reasons(out)
    }

    /// Prints what becomes of the rows of one file; at its end no extract is open.
    fn print_file(
        &self,
        controller: &mut Controller,
        name: &OsStr,
        bytes: &[u8],
        out: &mut impl Write,
    ) -> io::Result<Tally> {
        let tally = files::print_rows(name, bytes, out, |row, number, tally, out| {
            print_row(controller, row, number, tally, out)?;
            if controller.stage() == Stage::Complete {
                self.print_end(controller, out)?;
            }
            Ok(())
        })?;
        if controller.stage() != Stage::Idle {
            self.print_end(controller, out)?;
        }
        Ok(tally)
    }

    /// Prints the pending transactions and the board, and drops the extract.
    fn print_end(&self, controller: &mut Controller, out: &mut impl Write) -> io::Result<()> {
        writeln!(
            out,
            "pending {} of {TRANSACTIONS}",
            controller.pending().len()
        )?;
        for pending in controller.pending() {
            writeln!(out, "{pending}")?;
        }
        self.print_board(controller.store(), out)?;
        match controller.abandon() {
            Ok(()) => writeln!(out, "abandoned: {controller}"),
            Err(fault) => writeln!(out, "{fault}"),
        }
    }

    fn print_board(&self, store: &Store, out: &mut impl Write) -> io::Result<()> {
        match self.board.lines(store) {
            Ok(lines) => {
                self.board.print_name(out)?;
                writeln!(out, ": lines {}, none of this extract", lines.len())
            }
            Err(reason) => writeln!(out, "board {reason}"),
        }
    }
}

/// Hands the row on, an HD row by the call open, and prints what becomes of it.
fn print_row(
    controller: &mut Controller,
    row: &[u8],
    number: usize,
    tally: &mut Tally,
    out: &mut impl Write,
) -> io::Result<()> {
    match controller.hand(row) {
        Ok(identity) => {
            tally.add_taken();
            writeln!(out, "row {number}: done, {identity}, {controller}")
        }
        Err(fault) => {
            tally.add_refused(fault.refusal.reason);
            writeln!(out, "row {number}: {fault}")
        }
    }
}

#[cfg(test)]
mod tests;
