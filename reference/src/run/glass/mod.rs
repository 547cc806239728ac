//! The task `run` with the page of the board at its end.

use super::Run;
use crate::board;
use crate::board::page::picture::Picture;
use crate::board::page::{Framed, BYTES};
use crate::files;
use crate::refusal::ExtractFault;
use std::ffi::{OsStr, OsString};
use std::fmt;
use std::io::{self, Write};

/// The page that the command line asks for, and the file that gets its picture, if one does.
pub struct Request {
    pub board: board::Request,
    pub name: OsString,
    pub at: At,
    pub picture: Option<OsString>,
}

/// The hours and the minutes from which on a page shows lines, below 100 each.
#[derive(Clone, Copy, Default)]
pub struct At {
    hours: u32,
    minutes: u32,
}

impl At {
    /// What two digits, a colon and two digits write.
    pub fn read(clock: &OsStr) -> Option<At> {
        let (hours, minutes) = clock.to_str()?.split_once(':')?;
        Some(At {
            hours: two_digits(hours)?,
            minutes: two_digits(minutes)?,
        })
    }

    fn minute(self) -> u32 {
        60 * self.hours + self.minutes
    }
}

fn two_digits(text: &str) -> Option<u32> {
    let lawful = text.len() == 2 && text.bytes().all(|byte| byte.is_ascii_digit());
    lawful.then(|| text.parse().ok()).flatten()
}

impl fmt::Display for At {
    fn fmt(&self, f: &mut fmt::Formatter<'_>) -> fmt::Result {
        write!(f, "{:02}:{:02}", self.hours, self.minutes)
    }
}

impl Request {
    /// Prints what becomes of the rows of these files over an empty store, and the page.
    pub fn print(&self, names: &[OsString], out: &mut impl Write) -> io::Result<()> {
        Run::new("glass", &self.board).print(names, out, |run, out| self.print_page(run, out))
    }

    fn print_page(&self, run: &Run, out: &mut impl Write) -> io::Result<()> {
        write!(out, "page from {}: ", self.at)?;
        let mut page = [0; BYTES];
        let name = self.name.as_encoded_bytes();
        if let Err(reason) = run.board.page(&mut page, name, self.at.minute()) {
            return writeln!(out, "{}", ExtractFault::of_call(reason));
        }
        writeln!(out, "done\n{}", Framed(&page))?;
        if let Some(file) = &self.picture {
            files::write(file, Picture(&page).to_string().as_bytes())?;
            out.write_all(b"picture ")?;
            out.write_all(file.as_encoded_bytes())?;
            writeln!(out)?;
        }
        Ok(())
    }
}

#[cfg(test)]
mod tests;
