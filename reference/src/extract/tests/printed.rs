//! What the task prints.

use super::super::Request;
use super::*;
use crate::board::{self, Kind};

/// What is printed for a file of these rows over an empty store, for a board of this station.
fn printed(station: &str, rows: &[&str]) -> String {
    let request = Request {
        board: board::Request {
            kind: Kind::Table,
            slots: 1,
            station: station.into(),
            date: "240304".into(),
        },
        base: None,
    };
    let rows: String = rows.iter().map(|row| format!("{row:80}\n")).collect();
    let (mut controller, mut out) = (Controller::new(Store::new(1)), Vec::new());
    request
        .print_file(&mut controller, "a".as_ref(), rows.as_bytes(), &mut out)
        .unwrap();
    String::from_utf8(out).unwrap()
}

#[test]
fn an_extract_and_one_without_an_end() {
    let told = "file a\n\
        row 1: done, HD, stage between, rows 1, pending 0\n\
        row 2: done, BS, stage between, rows 2, pending 1\n\
        row 3: refused 13, column 1, identity \"BS\", row 3: the store is full\n\
        row 4: done, ZZ, stage complete, rows 3, pending 1\n\
        pending 1 of 32\n\
        new A00001 C day 23355 to day 23527, runs Mon Tue Wed Thu Fri, identity \"1A01\", \
        operator \"  \", destination \"       \", calls 0\n\
        board HALTA 240304: lines 0, none of this extract\n\
        abandoned: stage idle, rows 0, pending 0\n\
        row 5: refused 4, column 1, identity \"ZZ\", row 1: \
        the row or call does not fit the stage\n\
        row 6: done, HD, stage between, rows 1, pending 0\n\
        row 7: done, BS, stage begun, rows 2, pending 0\n\
        pending 0 of 32\n\
        board HALTA 240304: lines 0, none of this extract\n\
        abandoned: stage idle, rows 0, pending 0\n";
    let rows = [HEADER, CANCEL_A, NEW_B, TRAILER, TRAILER, HEADER, NEW_A];
    assert_eq!(printed("HALTA", &rows), told);
}

#[test]
fn no_such_station() {
    let told = printed("halta", &[HEADER]);
    assert!(told.contains("\nboard refused 14: no such station or day\nabandoned: "));
}
