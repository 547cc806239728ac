//! What the command line asks for.

use crate::run::glass;
use crate::{board, extract, generate};
use std::collections::HashMap;
use std::ffi::{OsStr, OsString};
use std::os::unix::ffi::OsStrExt;
use std::str::FromStr;

pub const USAGE: &str = "\
usage: reference run [--store STORE] [--capacity CAPACITY] STATION DATE FILE...
       reference glass [--store STORE] [--capacity CAPACITY] [--name NAME] [--at HH:MM] \
[--svg FILE] STATION DATE FILE...
       reference replay SCRIPT...
       reference rows FILE...
       reference stores [--capacity CAPACITY] FILE...
       reference board [--store STORE] [--capacity CAPACITY] STATION DATE FILE...
       reference turns [--store STORE] [--capacity CAPACITY] COUNT STATION DATE FILE...
       reference pages [--store STORE] [--capacity CAPACITY] COUNT STATION DATE FILE...
       reference extract [--store STORE] [--capacity CAPACITY] [--base FILE] STATION DATE FILE...
       reference generate SEED COUNT
       reference generate-schedules SEED COUNT
       reference generate-extracts SEED COUNT
       reference generate-histories SEED COUNT";

/// The most slots that the command line can ask for.
const MOST_SLOTS: usize = 65_536;

/// The slots that a store has where none are asked for.
const USUAL_SLOTS: usize = 2_000;

pub enum Command {
    Run(board::Request, Vec<OsString>),
    Glass(glass::Request, Vec<OsString>),
    Replay(Vec<OsString>),
    Rows(Vec<OsString>),
    Stores { slots: usize, names: Vec<OsString> },
    Board(board::Request, Vec<OsString>),
    Turns(u64, board::Request, Vec<OsString>),
    Pages(u64, board::Request, Vec<OsString>),
    Extract(extract::Request, Vec<OsString>),
    Generate(generate::Sample),
}

/// The commands that `--` stands between, or `None` where one of them is none.
pub fn commands(arguments: &[OsString]) -> Option<Vec<Command>> {
    arguments
        .split(|argument| argument == "--")
        .map(command)
        .collect()
}

/// The command the arguments make, or `None` where they make none.
fn command(arguments: &[OsString]) -> Option<Command> {
    let (name, rest) = arguments.split_first()?;
    let name = name.to_str()?;
    let options: &[&str] = match name {
        "run" | "board" | "turns" | "pages" => &["store", "capacity"],
        "glass" => &["store", "capacity", "name", "at", "svg"],
        "stores" => &["capacity"],
        "extract" => &["store", "capacity", "base"],
        _ => &[],
    };
    let (mut given, words) = sorted_out(options, rest)?;
    match (name, words.as_slice()) {
        ("replay", [_, ..]) => Some(Command::Replay(words)),
        ("rows", [_, ..]) => Some(Command::Rows(words)),
        ("stores", [_, ..]) => Some(Command::Stores {
            slots: slots_of(&given)?,
            names: words,
        }),
        ("run", [station, date, names @ ..]) if !names.is_empty() => Some(Command::Run(
            request(&given, station, date)?,
            names.to_vec(),
        )),
        ("glass", [station, date, names @ ..]) if !names.is_empty() => {
            let board = request(&given, station, date)?;
            let at = match given.get("at") {
                Some(clock) => glass::At::read(clock)?,
                None => glass::At::default(),
            };
            let request = glass::Request {
                board,
                name: given.remove("name").unwrap_or_default(),
                at,
                picture: given.remove("svg"),
            };
            Some(Command::Glass(request, names.to_vec()))
        }
        ("board", [station, date, names @ ..]) if !names.is_empty() => Some(Command::Board(
            request(&given, station, date)?,
            names.to_vec(),
        )),
        ("turns", [times, station, date, names @ ..]) if !names.is_empty() => {
            let request = request(&given, station, date)?;
            Some(Command::Turns(number(times)?, request, names.to_vec()))
        }
        ("pages", [times, station, date, names @ ..]) if !names.is_empty() => {
            let request = request(&given, station, date)?;
            Some(Command::Pages(number(times)?, request, names.to_vec()))
        }
        ("extract", [station, date, names @ ..]) if !names.is_empty() => {
            let board = request(&given, station, date)?;
            let base = given.remove("base");
            let request = extract::Request { board, base };
            Some(Command::Extract(request, names.to_vec()))
        }
        (name, [seed, count]) => Some(Command::Generate(generate::Sample {
            kind: generate::Kind::named(name)?,
            seed: number(seed)?,
            count: number(count)?,
        })),
        _ => None,
    }
}

/// The values of options by their names.
type Given = HashMap<&'static str, OsString>;

/// The options among the arguments, each at most once, and the other words in order.
fn sorted_out(options: &[&'static str], arguments: &[OsString]) -> Option<(Given, Vec<OsString>)> {
    let mut given = Given::new();
    let mut words = Vec::new();
    let mut arguments = arguments.iter();
    while let Some(argument) = arguments.next() {
        if !looks_like_an_option(argument) {
            words.push(argument.clone());
            continue;
        }
        let option = argument.as_bytes().strip_prefix(b"--")?;
        let (option, value) = match option.iter().position(|&byte| byte == b'=') {
            Some(sign) => (&option[..sign], OsStr::from_bytes(&option[sign + 1..])),
            None => {
                let value = arguments.next()?;
                (
                    option,
                    Some(value.as_os_str()).filter(|it| !looks_like_an_option(it))?,
                )
            }
        };
        let known = options.iter().find(|known| known.as_bytes() == option)?;
        if given.insert(known, value.to_owned()).is_some() {
            return None;
        }
    }
    Some((given, words))
}

/// Whether an argument begins with `-` and is longer.
fn looks_like_an_option(argument: &OsStr) -> bool {
    argument.len() > 1 && argument.as_encoded_bytes()[0] == b'-'
}

/// The board that these options and arguments ask for.
fn request(given: &Given, station: &OsStr, date: &OsStr) -> Option<board::Request> {
    let kind = match given.get("store") {
        Some(store) => board::Kind::named(store)?,
        None => board::Kind::Table,
    };
    Some(board::Request {
        kind,
        slots: slots_of(given)?,
        station: station.to_owned(),
        date: date.to_owned(),
    })
}

/// The number that an argument writes.
fn number<N: FromStr>(argument: &OsStr) -> Option<N> {
    argument.to_str()?.parse().ok()
}

/// The number of slots that the options ask for.
fn slots_of(given: &Given) -> Option<usize> {
    match given.get("capacity") {
        Some(capacity) => number(capacity).filter(|&slots| slots <= MOST_SLOTS),
        None => Some(USUAL_SLOTS),
    }
}

#[cfg(test)]
mod tests {
    use super::*;

    fn made(words: &str) -> Option<Command> {
        let arguments: Vec<OsString> = words.split(' ').map(OsString::from).collect();
        command(&arguments)
    }

    /// Store, slots and files of the board that these words ask for.
    fn board_of(words: &str) -> Option<(board::Kind, usize, usize)> {
        match made(words)? {
            Command::Run(request, names)
            | Command::Board(request, names)
            | Command::Turns(_, request, names)
            | Command::Pages(_, request, names) => Some((request.kind, request.slots, names.len())),
            Command::Glass(request, names) => {
                Some((request.board.kind, request.board.slots, names.len()))
            }
            Command::Extract(request, names) => {
                Some((request.board.kind, request.board.slots, names.len()))
            }
            _ => None,
        }
    }

    #[test]
    fn options_stand_anywhere() {
        use board::Kind::{Bag, Table};
        let all = [
            ("run HALTA 240304 a b", (Table, 2_000, 2)),
            ("run --store bag HALTA 240304 a", (Bag, 2_000, 1)),
            ("run --capacity 0 --store table A 1 a", (Table, 0, 1)),
            ("run --store=bag --capacity=65536 A 1 a", (Bag, 65_536, 1)),
            ("run A 1 a --store bag", (Bag, 2_000, 1)),
            ("run A --capacity +7 1 a -", (Table, 7, 2)),
            ("board --store bag A 1 a", (Bag, 2_000, 1)),
            ("turns 3 --capacity 9 A 1 a", (Table, 9, 1)),
            ("pages --store=bag 3 A 1 a", (Bag, 2_000, 1)),
            (
                "glass A 1 --at 09:15 a --name=x --svg b c",
                (Table, 2_000, 2),
            ),
            ("extract --base b A 1 a c", (Table, 2_000, 2)),
        ];
        for (words, expected) in all {
            assert_eq!(board_of(words), Some(expected), "{words}");
        }
    }

    #[test]
    fn words_that_ask_for_nothing() {
        for words in [
            "run HALTA 240304",
            "run --store bag HALTA 240304",
            "run HALTA 240304 --store bag",
            "run --store shelf HALTA 240304 a",
            "run --capacity 65537 HALTA 240304 a",
            "run --store bag --store bag HALTA 240304 a",
            "run --capacity 1 --store bag --capacity 1 HALTA 240304 a",
            "run --base b HALTA 240304 a",
            "run HALTA 240304 -a",
            "rows --store bag a",
            "stores --store bag a",
            "stores --capacity -1 a",
            "stores --capacity",
            "turns x HALTA 240304 a",
            "pages HALTA 240304 a",
            "pages -1 HALTA 240304 a",
            "glass HALTA 240304",
            "glass --at 9:15 HALTA 240304 a",
            "glass --at 09:15: HALTA 240304 a",
            "glass --at 0915 HALTA 240304 a",
            "glass --at 09.15 HALTA 240304 a",
            "glass --at +9:15 HALTA 240304 a",
            "glass --name a --name b HALTA 240304 a",
            "glass --name -a HALTA 240304 a",
            "glass --svg",
            "run --name a HALTA 240304 a",
            "rows",
        ] {
            assert!(made(words).is_none(), "{words}");
        }
    }

    /// Name, clock and picture of the page that these words ask for.
    fn glass_of(words: &[&[u8]]) -> Option<(Vec<u8>, String, Option<OsString>)> {
        let ends = [&b"HALTA"[..], b"240304", b"a"];
        let words: Vec<OsString> = [&b"glass"[..]]
            .iter()
            .chain(words)
            .chain(&ends)
            .map(|word| OsStr::from_bytes(word).to_owned())
            .collect();
        match command(&words)? {
            Command::Glass(request, _) => {
                let name = request.name.as_bytes().to_vec();
                Some((name, request.at.to_string(), request.picture))
            }
            _ => None,
        }
    }

    #[test]
    fn the_page_that_is_asked_for() {
        let made = |name: &[u8], clock: &str| Some((name.to_vec(), clock.to_owned(), None));
        assert_eq!(glass_of(&[]), made(b"", "00:00"));
        assert_eq!(glass_of(&[b"--name", b""]), made(b"", "00:00"));
        assert_eq!(glass_of(&[b"--name="]), made(b"", "00:00"));
        assert_eq!(
            glass_of(&[b"--at=24:00", b"--name= -a=b "]),
            made(b" -a=b ", "24:00")
        );
        assert_eq!(
            glass_of(&[b"--name=-\xff\n", b"--at", b"99:99"]),
            made(b"-\xff\n", "99:99")
        );
        let picture = Some("p=q".into());
        assert_eq!(
            glass_of(&[b"--svg=p=q"]),
            Some((vec![], "00:00".to_owned(), picture))
        );
    }

    #[test]
    fn the_base_and_the_slots() {
        let base_of = |words| match made(words) {
            Some(Command::Extract(request, _)) => request.base,
            _ => None,
        };
        assert_eq!(base_of("extract --base b A 1 a"), Some("b".into()));
        assert_eq!(base_of("extract A 1 a"), None);
        match made("stores a --capacity 10 b") {
            Some(Command::Stores { slots, names }) => assert_eq!((slots, names.len()), (10, 2)),
            _ => panic!("no stores"),
        }
    }
}
