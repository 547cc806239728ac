//! The report over files of rows.

use crate::files;
use crate::row::Row;
use crate::tally::Tally;
use std::ffi::{OsStr, OsString};
use std::io::{self, Write};

/// What the report calls the rows that were taken.
const READ: &str = "read";

/// Prints the report over the files of these names.
pub fn print(names: &[OsString], out: &mut impl Write) -> io::Result<()> {
    let mut total = Tally::default();
    for name in names {
        let bytes = files::read(name)?;
        total += print_file(name, &bytes, out)?;
    }
    writeln!(out, "files {}, {}", names.len(), total.told(READ))?;
    total.print_reasons(out)
}

fn print_file(name: &OsStr, bytes: &[u8], out: &mut impl Write) -> io::Result<Tally> {
    let tally = files::print_rows(
        name,
        bytes,
        out,
        |row, number, tally, out| match Row::read(row) {
            Ok((identity, row)) => {
                tally.add_taken();
                writeln!(out, "row {number}: {identity} {row}")
            }
            Err(refusal) => {
                tally.add_refused(refusal.reason);
                writeln!(out, "row {number}: {refusal}")
            }
        },
    )?;
    writeln!(out, "{}", tally.told(READ))?;
    Ok(tally)
}
