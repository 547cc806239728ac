use super::{At, Request};
use crate::board::{self, Kind};
use crate::run::Run;

/// What is printed for the page of a board over files with one train from HALTA at 09:15.
fn printed(station: &str, name: &str, at: &str) -> String {
    let rows = [
        "HD                              DFROC1A       F",
        "BSNA000012312112405311111100    1A01                                           P",
        "BX         GX",
        "LOHALTA        09154",
        "LTSANDPT       10042",
        "ZZ",
    ];
    let rows: String = rows.iter().map(|row| format!("{row:80}\n")).collect();
    let board = board::Request {
        kind: Kind::Bag,
        slots: 1,
        station: station.into(),
        date: "240304".into(),
    };
    let request = Request {
        board,
        name: name.into(),
        at: At::read(at.as_ref()).unwrap(),
        picture: None,
    };
    let (mut run, mut out) = (Run::new("glass", &request.board), Vec::new());
    run.print_head(&mut out).unwrap();
    run.print_file("a".as_ref(), rows.as_bytes(), &mut out)
        .unwrap();
    let head = "glass store bag: capacity 1, line slots 2\n";
    assert!(out.starts_with(head.as_bytes()));
    out.clear();
    request.print_page(&run, &mut out).unwrap();
    String::from_utf8(out).unwrap()
}

/// A frame around these two rows and nine that are blank.
fn framed(heading: &str, line: &str) -> String {
    let (edge, blank) = (format!("+{}+\n", "-".repeat(24)), format!("|{:24}|\n", ""));
    let blanks = blank.repeat(9);
    format!("{edge}|{heading:24}|\n|{line:24}|\n{blanks}{edge}")
}

#[test]
fn pages() {
    let line = "0915 SANDPT  4   GX 1A01";
    let all = [
        ("HALTA", "Halta Road", "09:15", "Halta Road", line),
        ("HALTA", "", "00:00", "HALTA", line),
        ("HALTA", "", "09:16", "HALTA", ""),
        ("HALTA", " ", "08:75", "HALTA", line),
        ("halta", "", "00:00", "", ""),
        ("halta", " halta ", "23:59", "halta", ""),
    ];
    for (station, name, at, heading, line) in all {
        let told = format!("page from {at}: done\n{}", framed(heading, line));
        assert_eq!(printed(station, name, at), told);
    }
}

#[test]
fn refused() {
    let told = |at, number, words| {
        format!("page from {at}: refused {number}, column 0, identity \"  \", row 0: {words}\n")
    };
    let minute = "the minute is above 1439";
    assert_eq!(printed("HALTA", "\n", "24:00"), told("24:00", 17, minute));
    assert_eq!(printed("HALTA", "", "99:99"), told("99:99", 17, minute));
    let name = "a byte of the name is outside 32 to 126";
    assert_eq!(printed("halta", "É", "23:59"), told("23:59", 18, name));
}
