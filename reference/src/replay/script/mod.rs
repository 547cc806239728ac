//! Scripts read into histories of calls.

use crate::files::rows_of;
use std::str;

/// The most slots of a store.
const MOST_SLOTS: usize = 65_536;
/// The most line slots of a board.
const MOST_LINE_SLOTS: usize = 131_072;

/// A call, without the controller and the board that it is done to.
#[derive(Clone, Debug, PartialEq, Eq)]
pub enum Call {
    Open(Vec<u8>),
    Row(Vec<u8>),
    Confirm,
    Abandon,
    Turn {
        day: u32,
        station: Vec<u8>,
    },
    /// The page is written into so many bytes of the memory.
    Page {
        length: u64,
        minute: u32,
        name: Vec<u8>,
    },
    Tell(u64),
    Tally,
}

impl Call {
    pub fn word(&self) -> &'static str {
        match self {
            Call::Open(_) => "open",
            Call::Row(_) => "row",
            Call::Confirm => "confirm",
            Call::Abandon => "abandon",
            Call::Turn { .. } => "turn",
            Call::Page { .. } => "page",
            Call::Tell(_) => "tell",
            Call::Tally => "tally",
        }
    }
}

impl Call {
    /// The line of a script that asks for this call.
    pub fn line(&self) -> Vec<u8> {
        let word = self.word();
        let line = match self {
            Call::Open(row) | Call::Row(row) => format!("{word} {}", escaped(row)),
            Call::Turn { day, station } => format!("{word} {day} {}", escaped(station)),
            Call::Page {
                length,
                minute,
                name,
            } => format!("{word} {length} {minute} {}", escaped(name)),
            Call::Tell(place) => format!("{word} {place}"),
            Call::Confirm | Call::Abandon | Call::Tally => word.to_owned(),
        };
        line.into_bytes()
    }
}

/// What two new controllers are given.
#[derive(Clone, Debug, PartialEq, Eq)]
pub struct History {
    pub slots: usize,
    pub line_slots: usize,
    pub calls: Vec<Call>,
    /// What the bag's controller gets in their place, if that is something else.
    pub other: Option<Vec<Call>>,
}

/// What a line asks for.
enum Line {
    New { slots: usize, line_slots: usize },
    Other,
    Call(Call),
}

impl Line {
    /// What this line asks for, or `None` where it is none.
    fn read(line: &[u8]) -> Option<Line> {
        let (word, rest) = cut(line);
        let call = match (word, rest) {
            (b"new", Some(rest)) => {
                let (slots, line_slots) = cut(rest);
                return Some(Line::New {
                    slots: number(slots).filter(|&slots| slots <= MOST_SLOTS)?,
                    line_slots: number(line_slots?).filter(|&slots| slots <= MOST_LINE_SLOTS)?,
                });
            }
            (b"other", None) => return Some(Line::Other),
            (b"open", rest) => Call::Open(unescaped(rest.unwrap_or_default())?),
            (b"row", rest) => Call::Row(unescaped(rest.unwrap_or_default())?),
            (b"confirm", None) => Call::Confirm,
            (b"abandon", None) => Call::Abandon,
            (b"turn", Some(rest)) => {
                let (day, station) = cut(rest);
                Call::Turn {
                    day: number(day)?,
                    station: unescaped(station.unwrap_or_default())?,
                }
            }
            (b"page", Some(rest)) => {
                let (length, rest) = cut(rest);
                let (minute, name) = cut(rest?);
                Call::Page {
                    length: number(length)?,
                    minute: number(minute)?,
                    name: unescaped(name.unwrap_or_default())?,
                }
            }
            (b"tell", Some(place)) => Call::Tell(number(place)?),
            (b"tally", None) => Call::Tally,
            _ => return None,
        };
        Some(Line::Call(call))
    }
}

/// The histories of a script, or the number of the first line that is none or out of place.
pub fn read(bytes: &[u8]) -> Result<Vec<History>, usize> {
    let mut histories = Vec::new();
    for (line, number) in rows_of(bytes).zip(1..) {
        if line.is_empty() || line.starts_with(b"#") {
            continue;
        }
        match Line::read(line).and_then(|line| add(&mut histories, line)) {
            Some(()) => {}
            None => return Err(number),
        }
    }
    Ok(histories)
}

/// Adds what a line asks for to the last history, or begins one. `None` where it is out of place.
fn add(histories: &mut Vec<History>, line: Line) -> Option<()> {
    match line {
        Line::New { slots, line_slots } => histories.push(History {
            slots,
            line_slots,
            calls: Vec::new(),
            other: None,
        }),
        Line::Other => {
            let other = &mut histories.last_mut()?.other;
            if other.is_some() {
                return None;
            }
            *other = Some(Vec::new());
        }
        Line::Call(call) => {
            let history = histories.last_mut()?;
            history
                .other
                .as_mut()
                .unwrap_or(&mut history.calls)
                .push(call);
        }
    }
    Some(())
}

/// What stands before the first blank and, if there is one, after it.
fn cut(line: &[u8]) -> (&[u8], Option<&[u8]>) {
    match line.iter().position(|&byte| byte == b' ') {
        Some(blank) => (&line[..blank], Some(&line[blank + 1..])),
        None => (line, None),
    }
}

/// The number that these decimal digits write.
fn number<N: str::FromStr>(digits: &[u8]) -> Option<N> {
    if !digits.iter().all(u8::is_ascii_digit) {
        return None;
    }
    str::from_utf8(digits).ok()?.parse().ok()
}

/// The bytes that stand here, each as itself or as a backslash and two hexadecimal digits.
fn unescaped(text: &[u8]) -> Option<Vec<u8>> {
    let (mut bytes, mut left) = (Vec::new(), text);
    while let [first, rest @ ..] = left {
        left = rest;
        if *first != b'\\' {
            bytes.push(*first);
            continue;
        }
        let [high, low, rest @ ..] = rest else {
            return None;
        };
        bytes.push(digit(*high)? * 16 + digit(*low)?);
        left = rest;
    }
    Some(bytes)
}

fn digit(byte: u8) -> Option<u8> {
    let digit = char::from(byte).to_digit(16)?;
    u8::try_from(digit).ok()
}

/// These bytes as a script writes them: a line feed, a backslash and what is not printable by
/// their digits.
fn escaped(bytes: &[u8]) -> String {
    bytes
        .iter()
        .map(|&byte| match byte {
            b'\\' | 0..=31 | 127..=255 => format!("\\{byte:02x}"),
            _ => char::from(byte).to_string(),
        })
        .collect()
}

#[cfg(test)]
mod tests;
