use super::Run;
use crate::board::{Kind, Request};

const HEADER: &str = "HD                              DFROC1A       F";
const UPDATE: &str = "HD                              DFROC1BDFROC1AU";
const NEW_A: &str =
    "BSNA000012312112405311111100    1A01                                           P";
const CANCEL_A: &str =
    "BSNA000012312112405311111100    1A01                                           C";
const ORIGIN: &str = "LOHALTA        09054";
const END: &str = "LTSANDPT       10042";

/// What is printed for a file of these rows, each filled up with blanks, after the first line.
fn printed(kind: Kind, station: &str, rows: &[&str]) -> String {
    let request = Request {
        kind,
        slots: 1,
        station: station.into(),
        date: "240304".into(),
    };
    let rows: String = rows.iter().map(|row| format!("{row:80}\n")).collect();
    let (mut run, mut out) = (Run::new("run", &request), Vec::new());
    run.print_head(&mut out).unwrap();
    run.print_file("a".as_ref(), rows.as_bytes(), &mut out)
        .unwrap();
    run.print_board(&mut out).unwrap();
    let told = String::from_utf8(out).unwrap();
    let (head, rest) = told.split_once('\n').unwrap();
    let head_told = format!("run store {}: capacity 1, line slots 2", kind.name());
    assert_eq!(head, head_told);
    rest.to_owned()
}

#[test]
fn confirmed_and_abandoned() {
    let rows = [
        HEADER, NEW_A, ORIGIN, END, "ZZ", "ZZ", UPDATE, CANCEL_A, CANCEL_A, "ZZ", UPDATE, "AA",
    ];
    let told = "board HALTA 240304: lines 0\n\
        file a\n\
        row 5: confirmed, rows 5, transactions 1, tally 1\n\
        board HALTA 240304: lines 1\n\
        row 6: refused 4, column 1, identity \"ZZ\", row 1: \
        the row or call does not fit the stage\n\
        row 8: refused 13, column 1, identity \"BS\", row 2: the store is full\n\
        row 9: refused 13, column 1, identity \"BS\", row 2: the store is full\n\
        row 10: abandoned, rows 2, transactions 0, rows refused 2\n\
        end of file: abandoned, rows 2, transactions 0, rows refused 0\n\
        board HALTA 240304\n\
        09:05 SANDPT  platform 4   operator    identity 1A01\n\
        lines 1\n";
    assert_eq!(printed(Kind::Table, "HALTA", &rows), told);
    assert_eq!(printed(Kind::Bag, "HALTA", &rows), told);
}

#[test]
fn no_such_station() {
    let told = "board refused 14: no such station or day\n\
        file a\n\
        row 5: confirmed, rows 5, transactions 1, tally 1\n\
        board without a station: lines 0\n\
        board without a station\n\
        lines 0\n";
    let rows = [HEADER, NEW_A, ORIGIN, END, "ZZ"];
    for station in ["halta", "", "HALTA   "] {
        assert_eq!(printed(Kind::Table, station, &rows), told);
    }
}
