//! Files, and the rows in them.

use crate::tally::Tally;
use std::ffi::OsStr;
use std::fs;
use std::io::{self, Write};

/// The bytes of the file of this name; an error tells the name too.
pub fn read(name: &OsStr) -> io::Result<Vec<u8>> {
    fs::read(name)
        .map_err(|error| io::Error::new(error.kind(), format!("{}: {error}", name.display())))
}

/// Writes these bytes to the file of this name; an error tells the name too.
pub fn write(name: &OsStr, bytes: &[u8]) -> io::Result<()> {
    fs::write(name, bytes).map_err(|error| {
        let told = format!("cannot write {}: {error}", name.display());
        io::Error::new(error.kind(), told)
    })
}

/// Prints the line that stands above the rows of the file of this name.
pub fn print_name(name: &OsStr, out: &mut impl Write) -> io::Result<()> {
    out.write_all(b"file ")?;
    out.write_all(name.as_encoded_bytes())?;
    writeln!(out)
}

/// Prints the name of a file, and what the caller prints of each of its rows, by their numbers. The
/// tally is of what the caller counts.
pub fn print_rows<W: Write>(
    name: &OsStr,
    bytes: &[u8],
    out: &mut W,
    mut print: impl FnMut(&[u8], usize, &mut Tally, &mut W) -> io::Result<()>,
) -> io::Result<Tally> {
    print_name(name, out)?;
    let mut tally = Tally::default();
    for (row, number) in rows_of(bytes).zip(1..) {
        print(row, number, &mut tally, out)?;
    }
    Ok(tally)
}

/// The rows of a file: each ends at a line feed, which is not part of it, and a last row
/// may lack it.
pub fn rows_of(bytes: &[u8]) -> impl Iterator<Item = &[u8]> {
    bytes
        .split_inclusive(|&byte| byte == b'\n')
        .map(|line| line.strip_suffix(b"\n").unwrap_or(line))
}

#[cfg(test)]
mod tests {
    use super::rows_of;

    #[test]
    fn where_rows_end() {
        let lengths = |file: &'static [u8]| rows_of(file).map(<[u8]>::len).collect::<Vec<_>>();
        assert_eq!(lengths(b""), []);
        assert_eq!(lengths(b"\n"), [0]);
        assert_eq!(lengths(b"ab\r\n\nc"), [3, 0, 1]);
    }
}
