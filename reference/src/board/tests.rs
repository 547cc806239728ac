use super::{Kind, Request};
use crate::refusal::Reason;
use crate::stores::store::Store;
use crate::stores::{self, Refused};

/// The worked week: permanent, overlay, and a cancellation on the Wednesday.
const WEEK: [(&str, char); 7] = [
    ("BSNC123452312112405311111100    1A23", 'P'),
    ("LOHALTA        09054", ' '),
    ("LTSANDPT       1004", ' '),
    ("BSNC123452403042403081111100    1A24", 'O'),
    ("LOHALTA  1     09155B", ' '),
    ("LTSANDPT       1014", ' '),
    ("BSNC123452403062403060010000    1A23", 'C'),
];

/// A store of so many slots that the worked week fills, and how many puts it refused.
fn week(slots: usize) -> (Store, Refused) {
    let rows: Vec<String> = WEEK
        .iter()
        .map(|(bytes, letter)| format!("{bytes:79}{letter}\n"))
        .collect();
    stores::filled_from(slots, rows.concat().as_bytes())
}

/// What is printed over a store of so many slots for the worked week.
fn told(slots: usize, station: &str, date: &str) -> String {
    let (store, refused) = week(slots);
    let request = Request {
        kind: Kind::Bag,
        slots,
        station: station.into(),
        date: date.into(),
    };
    let mut out = Vec::new();
    request.print_over(&store, refused, &mut out).unwrap();
    String::from_utf8(out).unwrap()
}

#[test]
fn the_worked_week() {
    let board = |date: &str, lines: &str| {
        let head = format!("board HALTA {date}, store bag: 3 of 3 schedules, refused 0");
        assert_eq!(told(3, "HALTA", date), format!("{head}\n{lines}\n"));
    };
    board(
        "240304",
        "09:15 SANDPT  platform 5B  operator    identity 1A24\nlines 1",
    );
    board("240306", "lines 0");
    board("240309", "lines 0");
    board(
        "240311",
        "09:05 SANDPT  platform 4   operator    identity 1A23\nlines 1",
    );
}

/// The identity of the line that a board of HALTA has on this date, over schedules of one train
/// with these columns 10 to 28 and letters; each has the letter's identity.
fn in_force(schedules: &[(&str, char)], date: &str) -> Option<String> {
    let train = |(columns, letter): &(&str, char)| {
        let schedule = format!("{:79}{letter}", format!("BSND00001{columns}    {letter}"));
        let ends = ["LOHALTA        09054", "LTSANDPT       1004"].map(|row| format!("{row:80}"));
        format!("{schedule}\n{}\n", ends.join("\n"))
    };
    let rows: String = schedules.iter().map(train).collect();
    let (store, refused) = stores::filled_from(schedules.len(), rows.as_bytes());
    assert_eq!((store.count(), refused), (schedules.len(), 0));
    let request = Request {
        kind: Kind::Table,
        slots: schedules.len(),
        station: "HALTA".into(),
        date: date.into(),
    };
    let lines = request.lines(&store).unwrap();
    assert!(lines.len() < 2);
    lines.first().map(|line| line.shown().identity.0)
}

/// Each date has the line of this letter, or none where it is a blank.
fn has(schedules: &[(&str, char)], dates: &[(&str, &str)]) {
    for &(date, letter) in dates {
        let told = in_force(schedules, date).unwrap_or_default();
        assert_eq!(told.trim(), letter.trim(), "{date}");
    }
}

#[test]
fn until_further_notice() {
    let train = [("2403049999991111100", 'P')];
    has(
        &train,
        &[
            ("600101", " "),
            ("240303", " "),
            ("240304", "P"),
            ("240308", "P"),
            ("240309", " "),
            ("240506", "P"),
            ("591231", "P"),
        ],
    );
    let last = [("5912319999990010000", 'N')];
    has(&last, &[("591230", " "), ("591231", "N"), ("600101", " ")]);
    let first = [("6001019999991111111", 'O')];
    has(&first, &[("600101", "O"), ("600102", "O"), ("591231", "O")]);
}

#[test]
fn an_end_over_no_end_and_the_other_way_round() {
    let end_over_none = [
        ("5912299999991111111", 'P'),
        ("5912305912301111111", 'O'),
        ("5912319999991111111", 'N'),
    ];
    let dates = [("591229", "P"), ("591230", "O"), ("591231", "N")];
    has(&end_over_none, &dates);
    let none_over_end = [("5912295912301111111", 'P'), ("5912309999991111111", 'O')];
    let dates = [("591229", "P"), ("591230", "O"), ("591231", "O")];
    has(&none_over_end, &dates);
    let cancelled = [("2403049999991111111", 'P'), ("2403069999990010000", 'C')];
    let dates = [
        ("240305", "P"),
        ("240306", " "),
        ("240307", "P"),
        ("240313", " "),
        ("591230", "P"),
        ("591231", " "),
    ];
    has(&cancelled, &dates);
}

/// What is told of so many pages over the worked week.
fn pages(times: u64, date: &str) -> Result<u64, Reason> {
    let (store, _) = week(3);
    let request = Request {
        kind: Kind::Table,
        slots: 3,
        station: "HALTA".into(),
        date: date.into(),
    };
    request.sum_of_pages(times, &store)
}

#[test]
fn sums_of_pages() {
    let sum = |text: &str| text.bytes().map(u64::from).sum::<u64>();
    let heading = sum("HALTA") + 19 * 32;
    let blank = heading + 240 * 32;
    let full = heading + sum("0915 SANDPT  5B     1A24") + 216 * 32;
    assert_eq!(pages(0, "240304"), Ok(0));
    assert_eq!(pages(1, "240304"), Ok(full));
    assert_eq!(pages(556, "240304"), Ok(556 * full));
    assert_eq!(pages(557, "240304"), Ok(556 * full + blank));
    assert_eq!(pages(1_440, "240304"), Ok(556 * full + 884 * blank));
    assert_eq!(pages(1_441, "240304"), Ok(557 * full + 884 * blank));
    assert_eq!(pages(3, "240306"), Ok(3 * blank));
    assert_eq!(pages(3, "240230"), Err(Reason::Station));
}

#[test]
fn a_full_store() {
    assert_eq!(
        told(1, "SANDPT", "240306"),
        "board SANDPT 240306, store bag: 1 of 1 schedules, refused 2\nlines 0\n"
    );
}

#[test]
fn no_such_station_or_day() {
    let refused = |station, date| {
        assert_eq!(
            told(3, station, date),
            "refused 14: no such station or day\n"
        );
    };
    for station in ["", "halta", " HALTA", "HAL TA", "       ", "HALTA   ", "É"] {
        refused(station, "240304");
    }
    for date in [
        "", "240230", "999999", "24030", "2403040", "24030x", "+40304",
    ] {
        refused("HALTA", date);
    }
}
