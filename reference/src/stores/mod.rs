//! The schedules of files, put into a store. One map stands here for both the table and the
//! bag, since both must agree with it.

pub mod gather;
pub mod record;
pub mod store;

use crate::files::{self, rows_of};
use crate::row::Row;
use gather::{Gatherer, Transaction};
use record::Schedule;
use std::ffi::OsString;
use std::io::{self, Write};
use store::{Answer, Store};

/// How many puts were refused as full or were not schedules.
pub type Refused = usize;

/// Prints what comes of the transactions in the files of these names, and then the store,
/// which has so many slots.
pub fn print(slots: usize, names: &[OsString], out: &mut impl Write) -> io::Result<()> {
    let mut store = Store::new(slots);
    for name in names {
        for transaction in transactions(&files::read(name)?) {
            print_transaction(&mut store, transaction, out)?;
        }
    }
    print_store(&store, out)
}

/// A store of so many slots after the transactions in the files of these names.
pub fn filled(slots: usize, names: &[OsString]) -> io::Result<(Store, Refused)> {
    let (mut store, mut refused) = (Store::new(slots), 0);
    for name in names {
        refused += fill(&mut store, &files::read(name)?);
    }
    Ok((store, refused))
}

/// A store of so many slots after the transactions in one file of these bytes.
#[cfg(test)]
pub fn filled_from(slots: usize, bytes: &[u8]) -> (Store, Refused) {
    let mut store = Store::new(slots);
    let refused = fill(&mut store, bytes);
    (store, refused)
}

/// Does the transactions in a file of these bytes, and counts the puts that came to nothing.
fn fill(store: &mut Store, bytes: &[u8]) -> Refused {
    transactions(bytes)
        .map(|transaction| apply(store, transaction))
        .filter(|answer| matches!(answer, Answer::Full | Answer::NotASchedule))
        .count()
}

/// The transactions in a file of these bytes; rows that are refused are passed over.
fn transactions(bytes: &[u8]) -> impl Iterator<Item = Transaction> + '_ {
    let mut gatherer = Gatherer::default();
    rows_of(bytes)
        .filter_map(|row| Row::read(row).ok())
        .filter_map(move |(_, row)| gatherer.take(row))
}

fn apply(store: &mut Store, transaction: Transaction) -> Answer {
    match transaction {
        Transaction::Put(record) => {
            Schedule::check(record).map_or(Answer::NotASchedule, |schedule| store.put(schedule))
        }
        Transaction::Remove(key) => store.remove(key),
    }
}

fn print_transaction(
    store: &mut Store,
    transaction: Transaction,
    out: &mut impl Write,
) -> io::Result<()> {
    let (asked, key) = match &transaction {
        Transaction::Put(record) => ("put", record.key),
        Transaction::Remove(key) => ("remove", *key),
    };
    writeln!(out, "{asked} {key}: {}", apply(store, transaction))
}

fn print_store(store: &Store, out: &mut impl Write) -> io::Result<()> {
    let (count, capacity) = (store.count(), store.capacity());
    writeln!(out, "table: {count} of {capacity}")?;
    for schedule in store.schedules() {
        writeln!(out, "{schedule}")?;
    }
    writeln!(out, "bag: {count} of {capacity}, the same map")
}

#[cfg(test)]
mod tests {
    use super::*;

    /// A row of these bytes, filled up with blanks, whose column 80 is this letter.
    fn row(bytes: &str, letter: char) -> Row {
        Row::read(format!("{bytes:79}{letter}").as_bytes())
            .unwrap()
            .1
    }

    /// What is printed for a store of two slots and these rows.
    fn told(rows: &[(&str, char)]) -> String {
        let (mut store, mut gatherer) = (Store::new(2), Gatherer::default());
        let mut out = Vec::new();
        for &(bytes, letter) in rows {
            if let Some(transaction) = gatherer.take(row(bytes, letter)) {
                print_transaction(&mut store, transaction, &mut out).unwrap();
            }
        }
        print_store(&store, &mut out).unwrap();
        String::from_utf8(out).unwrap()
    }

    const NEW: &str = "BSNC123452312112405311111100    1A23";
    const ORIGIN: &str = "LOHALTA        09054";
    const CALL: &str = "LIHALTA  2               00000929";

    #[test]
    fn a_schedule_is_gathered() {
        let rows = [
            (NEW, 'P'),
            ("BX         GX", ' '),
            (ORIGIN, ' '),
            (CALL, ' '),
            ("LTSANDPT       0000", ' '),
        ];
        assert_eq!(
            told(&rows),
            "put C12345 P day 23355: done\ntable: 1 of 2\n\
             C12345 P day 23355 to day 23527, runs Mon Tue Wed Thu Fri, identity \"1A23\", \
             operator \"GX\", destination \"SANDPT \", calls 2\nbag: 1 of 2, the same map\n"
        );
    }

    #[test]
    fn a_schedule_with_no_end_is_listed() {
        let rows = [
            ("BSNC123455912319999991111100    1A23", 'C'),
            ("BSRC123452312119999990000000    1A23", 'C'),
        ];
        let rest = "operator \"  \", destination \"       \", calls 0\n";
        assert!(told(&rows).ends_with(&format!(
            "table: 2 of 2\n\
             C12345 C day 23355 until further notice, runs on no day, identity \"1A23\", {rest}\
             C12345 C day 36524 until further notice, runs Mon Tue Wed Thu Fri, \
             identity \"1A23\", {rest}bag: 2 of 2, the same map\n"
        )));
    }

    #[test]
    fn a_third_call_at_one_tiploc() {
        let rows = [
            (NEW, 'P'),
            (ORIGIN, ' '),
            (CALL, ' '),
            ("LTHALTA  3     1004", ' '),
        ];
        assert!(told(&rows).starts_with("put C12345 P day 23355: not a schedule\ntable: 0 of 2\n"));
    }

    #[test]
    fn a_49th_call() {
        let calls: Vec<String> = (0..48)
            .map(|place| format!("LIT{place:<22}00000929"))
            .collect();
        let rows = |count| {
            let mut rows = vec![(NEW, 'P')];
            rows.extend(calls[..count].iter().map(|call| (call.as_str(), ' ')));
            rows.push(("LTSANDPT       1004", ' '));
            rows
        };
        assert!(told(&rows(47)).contains(": done\n"));
        assert!(told(&rows(48)).contains(": not a schedule\n"));
    }

    #[test]
    fn a_cancellation_drops_what_is_begun() {
        let rows = [
            (NEW, 'P'),
            (ORIGIN, ' '),
            (NEW, 'C'),
            ("LTSANDPT       1004", ' '),
        ];
        let told = told(&rows);
        assert!(told.starts_with("put C12345 C day 23355: done\ntable: 1 of 2\n"));
        assert!(told.contains("operator \"  \", destination \"       \", calls 0\n"));
    }
}
