//! An independent reference for `departures`, and a generator of rows and calls to try it on.
//!
//! It is written from the pages in `docs/` alone.

mod arguments;
mod board;
mod calendar;
mod extract;
mod fields;
mod files;
mod forms;
mod generate;
mod identity;
mod refusal;
mod replay;
mod report;
mod row;
mod run;
mod stores;
mod tally;
mod words;

use arguments::Command;
use std::ffi::OsString;
use std::io::{self, BufWriter, Write};
use std::process::ExitCode;

impl Command {
    fn run(self) -> io::Result<()> {
        let mut out = BufWriter::new(io::stdout().lock());
        let done = self.print(&mut out);
        out.flush().and(done)
    }

    fn print(self, out: &mut impl Write) -> io::Result<()> {
        match self {
            Command::Run(request, names) => run::print(&request, &names, out),
            Command::Glass(request, names) => request.print(&names, out),
            Command::Replay(names) => replay::print(&names, out),
            Command::Rows(names) => report::print(&names, out),
            Command::Stores { slots, names } => stores::print(slots, &names, out),
            Command::Board(request, names) => request.print(&names, out),
            Command::Turns(times, request, names) => request.print_turns(times, &names, out),
            Command::Pages(times, request, names) => request.print_pages(times, &names, out),
            Command::Extract(request, names) => request.print(&names, out),
            Command::Generate(sample) => sample.print(out),
        }
    }
}

fn main() -> ExitCode {
    let arguments: Vec<OsString> = std::env::args_os().skip(1).collect();
    let Some(commands) = arguments::commands(&arguments) else {
        eprintln!("{}", arguments::USAGE);
        return ExitCode::from(2);
    };
    match commands.into_iter().try_for_each(Command::run) {
        Ok(()) => ExitCode::SUCCESS,
        Err(error) => {
            eprintln!("reference: {error}");
            ExitCode::FAILURE
        }
    }
}
