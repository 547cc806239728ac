//! The extracts of files taken in order, each confirmed at its end.

pub mod glass;

use crate::board;
use crate::board::turned::Board;
use crate::extract::controller::Controller;
use crate::extract::stage::Stage;
use crate::files;
use crate::stores::store::Store;
use crate::tally::Tally;
use std::ffi::{OsStr, OsString};
use std::io::{self, Write};

/// Prints what becomes of the rows of these files over an empty store, and the board that is
/// asked for.
pub fn print(request: &board::Request, names: &[OsString], out: &mut impl Write) -> io::Result<()> {
    Run::new("run", request).print(names, out, Run::print_board)
}

struct Run<'a> {
    /// The name of the task.
    task: &'static str,
    request: &'a board::Request,
    controller: Controller,
    board: Board,
    /// How many rows were refused since the extract was opened.
    refused: usize,
}

impl Run<'_> {
    fn new<'a>(task: &'static str, request: &'a board::Request) -> Run<'a> {
        let store = match request.kind {
            board::Kind::Table => Store::new(request.slots),
            board::Kind::Bag => Store::bag(request.slots),
        };
        Run {
            task,
            request,
            board: Board::new(2 * store.capacity()),
            controller: Controller::new(store),
            refused: 0,
        }
    }

    /// Prints what becomes of the rows of these files, and the board as the caller prints it.
    fn print<W: Write>(
        mut self,
        names: &[OsString],
        out: &mut W,
        print_board: impl FnOnce(&Self, &mut W) -> io::Result<()>,
    ) -> io::Result<()> {
        self.print_head(out)?;
        let mut total = Tally::default();
        for name in names {
            let bytes = files::read(name)?;
            total += self.print_file(name, &bytes, out)?;
        }
        print_board(&self, out)?;
        writeln!(out, "files {}, {}", names.len(), total.told("done"))?;
        total.print_reasons(out)
    }

    /// Turns the board, and prints what it is then.
    fn print_head(&mut self, out: &mut impl Write) -> io::Result<()> {
        let (name, capacity) = (self.request.kind.name(), self.controller.capacity());
        let (task, slots) = (self.task, self.board.slots());
        writeln!(
            out,
            "{task} store {name}: capacity {capacity}, line slots {slots}"
        )?;
        match self.request.turn(&self.controller, &mut self.board) {
            Ok(()) => self.print_count(out),
            Err(reason) => writeln!(out, "board {reason}"),
        }
    }

    /// Prints what becomes of the rows of one file; at its end no extract is open.
    fn print_file(
        &mut self,
        name: &OsStr,
        bytes: &[u8],
        out: &mut impl Write,
    ) -> io::Result<Tally> {
        let tally = files::print_rows(name, bytes, out, |row, number, tally, out| {
            self.print_row(row, number, tally, out)
        })?;
        if self.controller.stage() != Stage::Idle {
            self.print_abandoned("end of file", out)?;
        }
        Ok(tally)
    }

    /// Hands the row on, and prints what becomes of it if it is refused or ends an extract.
    fn print_row(
        &mut self,
        row: &[u8],
        number: usize,
        tally: &mut Tally,
        out: &mut impl Write,
    ) -> io::Result<()> {
        let begins = self.controller.stage() == Stage::Idle;
        match self.controller.hand(row) {
            Ok(_) => {
                tally.add_taken();
                if begins {
                    self.refused = 0;
                }
                if self.controller.stage() == Stage::Complete {
                    self.print_end(&format!("row {number}"), out)?;
                }
                Ok(())
            }
            Err(fault) => {
                tally.add_refused(fault.refusal.reason);
                self.refused += 1;
                writeln!(out, "row {number}: {fault}")
            }
        }
    }

    /// Confirms the extract, or drops it where a row of it was refused.
    fn print_end(&mut self, place: &str, out: &mut impl Write) -> io::Result<()> {
        if self.refused > 0 {
            return self.print_abandoned(place, out);
        }
        let (rows, transactions) = (self.controller.rows(), self.controller.pending().len());
        match self.controller.confirm(&mut self.board) {
            Ok(()) => {
                let tally = self.controller.tally();
                writeln!(
                    out,
                    "{place}: confirmed, rows {rows}, transactions {transactions}, tally {tally}"
                )?;
                self.print_count(out)
            }
            Err(fault) => writeln!(out, "{place}: {fault}"),
        }
    }

    fn print_abandoned(&mut self, place: &str, out: &mut impl Write) -> io::Result<()> {
        let (rows, transactions) = (self.controller.rows(), self.controller.pending().len());
        let refused = self.refused;
        match self.controller.abandon() {
            Ok(()) => writeln!(
                out,
                "{place}: abandoned, rows {rows}, transactions {transactions}, \
                 rows refused {refused}"
            ),
            Err(fault) => writeln!(out, "{place}: {fault}"),
        }
    }

    /// Prints which board it is, and no line end.
    fn print_name(&self, out: &mut impl Write) -> io::Result<()> {
        if self.board.has_station() {
            self.request.print_name(out)
        } else {
            write!(out, "{}", self.board)
        }
    }

    fn print_count(&self, out: &mut impl Write) -> io::Result<()> {
        self.print_name(out)?;
        writeln!(out, ": lines {}", self.board.lines().len())
    }

    fn print_board(&self, out: &mut impl Write) -> io::Result<()> {
        self.print_name(out)?;
        writeln!(out)?;
        for line in self.board.lines() {
            writeln!(out, "{line}")?;
        }
        writeln!(out, "lines {}", self.board.lines().len())
    }
}

#[cfg(test)]
mod tests;
