use super::script::Call;
use super::side::Side;
use super::{print_histories, script};
use crate::stores::store::Store;

/// What is printed for a script of these lines.
fn printed(script: &str) -> String {
    let mut out = Vec::new();
    print_histories(&script::read(script.as_bytes()).unwrap(), &mut out).unwrap();
    String::from_utf8(out).unwrap()
}

/// The lines of a script that open an extract with one schedule of this train and end it.
fn extract(uid: &str, reference: &str, last: &str) -> String {
    let kind = if last.trim().is_empty() { 'F' } else { 'U' };
    let header = format!("{:32}{reference}{last}{kind}", "HD");
    let schedule = format!("BSN{uid}2312112405311111100    1A01");
    let rows = ["LOHALTA        09054", "LTSANDPT       1004", "ZZ"];
    let rows: String = rows.iter().map(|row| format!("row {row:80}\n")).collect();
    format!("open {header:80}\nrow {schedule:79}P\n{rows}")
}

const BLANK: &str = "       ";

#[test]
fn the_same_calls() {
    let extract = extract("A00001", "DFROC1A", BLANK);
    let script = format!(
        "new 1 2\n{extract}confirm\ntell 0\nturn 23439 HALTA  \ntell 0\ntell 1\ntally\nabandon\n"
    );
    let told = "history 1: capacity 1, line slots 2, calls 12\n\
        1 open: done\n2 row: done\n3 row: done\n4 row: done\n5 row: done\n\
        6 confirm: done\n\
        7 tell: none\n\
        8 turn: done\n\
        9 tell: 09:05 SANDPT  platform 4   operator    identity 1A01\n\
        10 tell: none\n\
        11 tally: 1\n\
        12 abandon: refused 4, column 0, identity \"  \", row 0: \
        the row or call does not fit the stage\n\
        table: tally 1, board HALTA   day 23439, lines 1\n\
        09:05 SANDPT  platform 4   operator    identity 1A01\n\
        bag: the same answers, the same board\n\
        histories 1, calls 12: done 11, refused 1\n\
        refused 4: 1 times, the row or call does not fit the stage\n";
    assert_eq!(printed(&script), told);
}

#[test]
fn other_calls() {
    let extract = extract("A00001", "DFROC1A", BLANK);
    let turn = "turn 23439 HALTA  \n";
    let script = format!("new 65536 131072\n{turn}other\n{turn}{extract}confirm\nnew 0 0\nother\n");
    let told = "history 1: capacity 65535, line slots 131072, calls 1 and 7\n\
        1 turn: done\n\
        other\n\
        1 turn: done\n\
        2 open: done\n3 row: done\n4 row: done\n5 row: done\n6 row: done\n\
        7 confirm: done\n\
        table: tally 0, board HALTA   day 23439, lines 0\n\
        bag: tally 1, board HALTA   day 23439, lines 1\n\
        09:05 SANDPT  platform 4   operator    identity 1A01\n\
        boards: different\n\
        history 2: capacity 0, line slots 0, calls 0 and 0\n\
        other\n\
        table: tally 0, board without a station, lines 0\n\
        bag: tally 0, board without a station, lines 0\n\
        boards: the same\n\
        histories 2, calls 8: done 8, refused 0\n";
    assert_eq!(printed(&script), told);
}

#[test]
fn boards_of_one_text_may_differ() {
    let turn = "turn 23439 HALTA  \n";
    let (first, second) = (
        extract("A00001", "DFROC1A", BLANK),
        extract("A00002", "DFROC1A", BLANK),
    );
    let script = format!("new 1 2\n{first}confirm\n{turn}other\n{second}confirm\n{turn}");
    assert!(printed(&script).contains("\nboards: different\n"));
}

#[test]
fn pages() {
    let extract = extract("A00001", "DFROC1A", BLANK);
    let script = format!(
        "new 1 2\npage 264 0\n{extract}confirm\nturn 23439 HALTA  \npage 263 1440 \\00\n\
         page 18446744073709551615 0\npage 1024 0\npage 264 1440 \\00\npage 264 1439 \\00\n\
         page 264 545  Halta Road \ntally\n"
    );
    let told = printed(&script);
    let (edge, blank) = (format!("+{}+\n", "-".repeat(24)), format!("|{:24}|\n", ""));
    let first = format!(
        "1 page: done\n{edge}{}{edge}2 open: done\n",
        blank.repeat(11)
    );
    assert!(told.contains(&first));
    let refused = |call: u32, number: u32, words: &str| {
        format!("{call} page: refused {number}, column 0, identity \"  \", row 0: {words}\n")
    };
    let (length, minute) = ("the page is not of 264 bytes", "the minute is above 1439");
    let all = [
        "8 turn: done\n".to_owned(),
        refused(9, 16, length),
        refused(10, 16, length),
        refused(11, 16, length),
        refused(12, 17, minute),
        refused(13, 18, "a byte of the name is outside 32 to 126"),
        format!("14 page: done\n{edge}|{:24}|\n", "Halta Road"),
        format!("|0905 SANDPT  4      1A01|\n{}{edge}", blank.repeat(9)),
        "15 tally: 1\n".to_owned(),
    ];
    assert!(told.contains(&all.concat()));
    assert!(told.contains("\nbag: the same answers, the same board\n"));
    assert!(told.ends_with(
        "refused 16: 3 times, the page is not of 264 bytes\n\
         refused 17: 1 times, the minute is above 1439\n\
         refused 18: 1 times, a byte of the name is outside 32 to 126\n"
    ));
}

#[test]
fn a_page_stands_at_the_beginning_of_the_memory() {
    let mut side = Side::new(Store::new(0), 0);
    let mut page = |length| {
        let (minute, name) = (0, b"Halta".to_vec());
        side.answer(&Call::Page {
            length,
            minute,
            name,
        });
        (side.memory[..8].to_vec(), side.memory[264..].to_vec())
    };
    for length in [0, 263, 1_024, u64::MAX] {
        assert_eq!(page(length), (vec![0; 8], vec![0; 760]));
    }
    assert_eq!(page(264), (b"Halta   ".to_vec(), vec![0; 760]));
}
