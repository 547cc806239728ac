//! Scripts of calls, done to a controller over a table and to one over a bag.

pub mod script;
pub mod side;

use crate::files;
use crate::stores::store::Store;
use crate::tally::Tally;
use script::{Call, History};
use side::{Answer, Side};
use std::ffi::{OsStr, OsString};
use std::io::{self, Write};

/// Prints what comes of the calls in the scripts of these names.
pub fn print(names: &[OsString], out: &mut impl Write) -> io::Result<()> {
    for name in names {
        let bytes = files::read(name)?;
        let histories = script::read(&bytes).map_err(|line| no_call(name, line))?;
        out.write_all(b"script ")?;
        out.write_all(name.as_encoded_bytes())?;
        writeln!(out)?;
        print_histories(&histories, out)?;
    }
    Ok(())
}

/// The error that ends the program at a line that is none.
fn no_call(name: &OsStr, line: usize) -> io::Error {
    let told = format!(
        "{}: line {line} is no call, or out of place",
        name.display()
    );
    io::Error::new(io::ErrorKind::InvalidData, told)
}

pub fn print_histories(histories: &[History], out: &mut impl Write) -> io::Result<()> {
    let mut total = Tally::default();
    for (history, number) in histories.iter().zip(1..) {
        write!(out, "history {number}: ")?;
        total += print_history(history, out)?;
    }
    let told = total.told_of("calls", "done");
    writeln!(out, "histories {}, {told}", histories.len())?;
    total.print_reasons(out)
}

fn print_history(history: &History, out: &mut impl Write) -> io::Result<Tally> {
    let mut table = Side::new(Store::new(history.slots), history.line_slots);
    let mut bag = Side::new(Store::bag(history.slots), history.line_slots);
    print_head(history, table.capacity(), out)?;
    let mut tally = Tally::default();
    let answers = table.answers(&history.calls);
    print_answers(&history.calls, &answers, &mut tally, out)?;
    match &history.other {
        None => {
            let others = bag.answers(&history.calls);
            print_side("table", &table, out)?;
            let answers = if others == answers {
                "the same"
            } else {
                "other"
            };
            let board = if bag.board.tells_what(&table.board) {
                "the same"
            } else {
                "another"
            };
            let memory = if bag.memory == table.memory {
                ""
            } else {
                ", another memory"
            };
            writeln!(out, "bag: {answers} answers, {board} board{memory}")?;
        }
        Some(calls) => {
            writeln!(out, "other")?;
            let answers = bag.answers(calls);
            print_answers(calls, &answers, &mut tally, out)?;
            print_side("table", &table, out)?;
            print_side("bag", &bag, out)?;
            let same = table.board.lines() == bag.board.lines();
            writeln!(
                out,
                "boards: {}",
                if same { "the same" } else { "different" }
            )?;
        }
    }
    Ok(tally)
}

fn print_head(history: &History, capacity: usize, out: &mut impl Write) -> io::Result<()> {
    let (line_slots, calls) = (history.line_slots, history.calls.len());
    write!(
        out,
        "capacity {capacity}, line slots {line_slots}, calls {calls}"
    )?;
    match &history.other {
        Some(others) => writeln!(out, " and {}", others.len()),
        None => writeln!(out),
    }
}

/// Prints the answers to these calls, and adds them to the tally.
fn print_answers(
    calls: &[Call],
    answers: &[Answer],
    tally: &mut Tally,
    out: &mut impl Write,
) -> io::Result<()> {
    for ((call, answer), number) in calls.iter().zip(answers).zip(1..) {
        match answer {
            Answer::Refused(fault) => tally.add_refused(fault.refusal.reason),
            _ => tally.add_taken(),
        }
        writeln!(out, "{number} {}: {answer}", call.word())?;
    }
    Ok(())
}

/// Prints what a controller and its board tell at the end, and the lines of the board.
fn print_side(name: &str, side: &Side, out: &mut impl Write) -> io::Result<()> {
    writeln!(out, "{name}: {side}")?;
    for line in side.board.lines() {
        writeln!(out, "{line}")?;
    }
    Ok(())
}

#[cfg(test)]
mod tests;
