//! A controller with its board, and its answers to calls.

use super::script::Call;
use crate::board::lines::Shown;
use crate::board::page::Framed;
use crate::board::turned::Board;
use crate::extract::controller::Controller;
use crate::refusal::ExtractFault;
use crate::stores::store::Store;
use std::fmt;

/// What comes of a call.
#[derive(Clone, Debug, PartialEq, Eq)]
pub enum Answer {
    Done,
    Refused(ExtractFault),
    /// The page was written, which has these bytes.
    Page(Vec<u8>),
    Line(Option<Shown>),
    Tally(u32),
}

impl Answer {
    fn of<T>(result: Result<T, ExtractFault>) -> Answer {
        match result {
            Ok(_) => Answer::Done,
            Err(fault) => Answer::Refused(fault),
        }
    }
}

impl fmt::Display for Answer {
    fn fmt(&self, f: &mut fmt::Formatter<'_>) -> fmt::Result {
        match self {
            Answer::Done => f.write_str("done"),
            Answer::Refused(fault) => fault.fmt(f),
            Answer::Page(page) => write!(f, "done\n{}", Framed(page)),
            Answer::Line(Some(line)) => line.fmt(f),
            Answer::Line(None) => f.write_str("none"),
            Answer::Tally(tally) => tally.fmt(f),
        }
    }
}

/// How many bytes a controller's calls can write.
const MEMORY: usize = 1_024;

/// A controller, and the board and the memory that are given to its calls.
pub struct Side {
    pub controller: Controller,
    pub board: Board,
    pub memory: [u8; MEMORY],
}

impl Side {
    pub fn new(store: Store, line_slots: usize) -> Side {
        Side {
            controller: Controller::new(store),
            board: Board::new(line_slots),
            memory: [0; MEMORY],
        }
    }

    pub fn capacity(&self) -> usize {
        self.controller.capacity()
    }

    /// The answers to these calls, which are done one after another.
    pub fn answers(&mut self, calls: &[Call]) -> Vec<Answer> {
        calls.iter().map(|call| self.answer(call)).collect()
    }

    pub fn answer(&mut self, call: &Call) -> Answer {
        let Side {
            controller,
            board,
            memory,
        } = self;
        match call {
            Call::Open(row) => Answer::of(controller.open(row)),
            Call::Row(row) => Answer::of(controller.row(row)),
            Call::Confirm => Answer::of(controller.confirm(board)),
            Call::Abandon => Answer::of(controller.abandon()),
            Call::Turn { day, station } => Answer::of(controller.turn(board, station, *day)),
            Call::Page {
                length,
                minute,
                name,
            } => {
                let length = usize::try_from(*length).map_or(MEMORY, |length| length.min(MEMORY));
                let page = &mut memory[..length];
                match board.page(page, name, *minute) {
                    Ok(()) => Answer::Page(page.to_vec()),
                    Err(reason) => Answer::Refused(ExtractFault::of_call(reason)),
                }
            }
            Call::Tell(place) => {
                let place = usize::try_from(*place).ok();
                Answer::Line(place.and_then(|place| board.lines().get(place)).cloned())
            }
            Call::Tally => Answer::Tally(controller.tally()),
        }
    }
}

/// The tally, which board it is, and how many lines it has.
impl fmt::Display for Side {
    fn fmt(&self, f: &mut fmt::Formatter<'_>) -> fmt::Result {
        let (tally, board) = (self.controller.tally(), &self.board);
        write!(f, "tally {tally}, {board}, lines {}", board.lines().len())
    }
}
