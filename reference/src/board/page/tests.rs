use super::{BYTES, COLUMNS, ROWS};
use crate::board::turned::Board;
use crate::refusal::Reason;
use crate::stores;

const BLANK: &str = "                        ";

/// The rows of a schedule of this number, from HALTA at this time.
fn schedule(number: usize, time: &str) -> String {
    let schedule = format!("BSNC{number:05}2312112405311111100    1A{number:02}");
    let rows = [
        format!("{schedule:79}P"),
        "BX         ZZ".to_owned(),
        format!("LOHALTA        {time}4"),
        "LTSANDPT       2359".to_owned(),
    ];
    rows.iter().map(|row| format!("{row:80}\n")).collect()
}

/// A board of HALTA with a line for each of these times, whose trains are numbered in this order.
fn board(times: &[&str]) -> Board {
    let rows: String = times
        .iter()
        .enumerate()
        .map(|(number, time)| schedule(number, time))
        .collect();
    turned(&rows, times.len())
}

/// A board of HALTA over a store of so many slots that these rows fill.
fn turned(rows: &str, slots: usize) -> Board {
    let (store, refused) = stores::filled_from(slots, rows.as_bytes());
    assert_eq!((store.count(), refused), (slots, 0));
    let mut board = Board::new(2 * slots);
    board.turn(&store, b"HALTA  ", 23_439).unwrap();
    board
}

/// The rows of a page that is not refused, written over another.
fn page(board: &Board, name: &str, minute: u32) -> Vec<String> {
    let mut memory = [b'X'; BYTES];
    board.page(&mut memory, name.as_bytes(), minute).unwrap();
    let text = |row: &[u8]| String::from_utf8(row.to_vec()).unwrap();
    memory.chunks(COLUMNS).map(text).collect()
}

/// The first row of the page of a board without lines.
fn heading(board: &Board, name: &str) -> String {
    let rows = page(board, name, 0);
    assert!(rows.len() == ROWS && rows[1..].iter().all(|row| row == BLANK));
    rows[0].clone()
}

/// The first four bytes of each row below the heading.
fn times(page: &[String]) -> Vec<&str> {
    page[1..].iter().map(|row| &row[..4]).collect()
}

#[test]
fn the_row_of_a_line() {
    let rows = [
        format!("{:79}P\n", "BSNC000002312112405311111100    1A23"),
        format!("{:80}\n", "BX         ZZ"),
        format!("{:80}\n", "LOSANDPT       0900"),
        format!("{:80}\n", "LIHALTA                  000009054"),
        format!("{:80}\n", "LTHALTA        1004"),
    ];
    let page = page(&turned(&rows.concat(), 1), "Halta Road", 545);
    assert_eq!(page[0], "Halta Road              ");
    assert_eq!(page[1], "0905 HALTA   4   ZZ 1A23");
    assert!(page[2..].iter().all(|row| row == BLANK));
}

#[test]
fn every_byte_of_a_field() {
    let rows = [
        format!("{:79}P\n", "BSNC000002312112405311111100    9Z 9"),
        format!("{:80}\n", "LOHALTA        235910B"),
        format!("{:80}\n", "LTSEVENLT      0010"),
    ];
    let page = page(&turned(&rows.concat(), 1), "", 1_439);
    assert_eq!(page[1], "2359 SEVENLT 10B    9Z 9");
}

#[test]
fn headings() {
    let board = board(&[]);
    let all = [
        ("Halta Road", "Halta Road              "),
        ("  Halta  Road ", "Halta  Road             "),
        ("", "HALTA                   "),
        (" ", "HALTA                   "),
        ("                              ", "HALTA                   "),
        ("abcdefghijklmnopqrstuvwx", "abcdefghijklmnopqrstuvwx"),
        ("abcdefghijklmnopqrstuvwxy", "abcdefghijklmnopqrstuvwx"),
        ("abcdefghijklmnopqrstuvw yz", "abcdefghijklmnopqrstuvw "),
        ("   abcdefghijklmnopqrstuvwxy", "abcdefghijklmnopqrstuvwx"),
        (" ~!\\ ", "~!\\                     "),
    ];
    for (name, expected) in all {
        assert_eq!(heading(&board, name), expected, "{name:?}");
    }
}

#[test]
fn no_station() {
    let board = Board::new(0);
    for name in ["", "  "] {
        assert_eq!(heading(&board, name), BLANK);
    }
    assert_eq!(heading(&board, " Halta"), "Halta                   ");
}

#[test]
fn ten_lines_and_eleven() {
    let all = [
        "0900", "0901", "0902", "0903", "0904", "0905", "0906", "0907", "0908", "0909", "0910",
    ];
    let (ten, eleven) = (board(&all[..10]), board(&all));
    assert_eq!(times(&page(&ten, "", 540)), all[..10]);
    assert_eq!(times(&page(&eleven, "", 540)), all[..10]);
    assert_eq!(times(&page(&eleven, "", 541)), all[1..]);
    let nine = page(&ten, "", 541);
    assert_eq!(times(&nine)[..9], all[1..10]);
    assert_eq!(nine[10], BLANK);
    let last = page(&eleven, "", 550);
    assert_eq!(times(&last)[0], "0910");
    assert!(last[2..].iter().all(|row| row == BLANK));
    assert!(page(&eleven, "", 551)[1..].iter().all(|row| row == BLANK));
}

#[test]
fn two_lines_of_one_minute() {
    let board = board(&["0905", "0906", "0905", "0904", "0906"]);
    let trains = |minute| -> Vec<String> {
        page(&board, "", minute)[1..]
            .iter()
            .filter(|row| *row != BLANK)
            .map(|row| row[20..].to_owned())
            .collect()
    };
    assert_eq!(trains(544), ["1A03", "1A00", "1A02", "1A01", "1A04"]);
    assert_eq!(trains(545), ["1A00", "1A02", "1A01", "1A04"]);
    assert_eq!(trains(546), ["1A01", "1A04"]);
    assert_eq!(trains(547), [""; 0]);
}

#[test]
fn two_lines_of_one_minute_at_the_end_of_the_page() {
    let board = board(&["0900"; 11]);
    let page = page(&board, "", 540);
    let trains: Vec<&str> = page[1..].iter().map(|row| &row[20..]).collect();
    assert_eq!(trains[0], "1A00");
    assert_eq!(trains[9], "1A09");
}

#[test]
fn the_first_and_the_last_minute() {
    let board = board(&["0001", "2359"]);
    assert_eq!(times(&page(&board, "", 0))[..2], ["0001", "2359"]);
    assert_eq!(times(&page(&board, "", 1))[..2], ["0001", "2359"]);
    assert_eq!(times(&page(&board, "", 2))[..2], ["2359", "    "]);
    assert_eq!(times(&page(&board, "", 1_439))[..2], ["2359", "    "]);
}

#[test]
fn an_old_page_does_not_show_through() {
    let mut memory = [0; BYTES];
    let full = board(&["0905"; 10]);
    full.page(&mut memory, b"abcdefghijklmnopqrstuvwx", 0)
        .unwrap();
    assert!(!memory.starts_with(b"A "));
    Board::new(0).page(&mut memory, b"A", 0).unwrap();
    assert_eq!(memory.trim_ascii_end(), b"A");
}

/// Why the page is refused, which leaves the memory as it was.
fn refused(length: usize, name: &[u8], minute: u32) -> Reason {
    let old: Vec<u8> = (0..=255).cycle().take(length).collect();
    let mut memory = old.clone();
    let refused = board(&["0905"]).page(&mut memory, name, minute);
    assert_eq!(memory, old);
    refused.unwrap_err()
}

#[test]
fn the_uppermost_condition() {
    for length in [0, 1, 263, 265, 1_024] {
        assert_eq!(refused(length, b"\n", u32::MAX), Reason::PageLength);
        assert_eq!(refused(length, b"", 0), Reason::PageLength);
    }
    for minute in [1_440, u32::MAX] {
        assert_eq!(refused(264, b"\xff", minute), Reason::Minute);
        assert_eq!(refused(264, b"Halta", minute), Reason::Minute);
    }
    for name in [
        &b"\x1f"[..],
        b"Halta\x7f",
        b"  \t  ",
        &[b'a', 255],
        &[0; 30],
    ] {
        assert_eq!(refused(264, name, 1_439), Reason::NameByte);
    }
    let long = [&[b'a'; 300][..], b"\n"].concat();
    assert_eq!(refused(264, &long, 0), Reason::NameByte);
}
