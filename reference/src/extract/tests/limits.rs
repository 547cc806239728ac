//! How many rows and transactions there may be, and how many keys.

use super::*;

/// A BS row that is a whole transaction: a cancellation with this letter and this number.
fn cancelled(change: char, number: usize) -> String {
    let day = if change == 'D' { "" } else { "2405311111100" };
    format!(
        "{:79}C",
        format!("BS{change}C{number:05}231211{day}    1A23")
    )
}

/// A store of one slot with the schedule of this BS row.
fn holding(schedule: &str) -> Store {
    let rows = whole(schedule).map(|row| format!("{row:80}\n"));
    crate::stores::filled_from(1, rows.concat().as_bytes()).0
}

#[test]
fn room_for_one() {
    let store = holding(NEW_A);
    let mut controller = after(&store, &[HEADER, DELETE_A, NEW_B, ORIGIN, END]);
    assert_eq!(controller.to_string(), "stage between, rows 5, pending 2");
    assert_eq!(controller.overlay().len(), 1);
    assert_eq!(number(&mut controller, NEW_B), 8);
    assert_eq!(number(&mut controller, NEW_A), 13);

    let mut controller = after(&store, &[HEADER]);
    assert_eq!(number(&mut controller, NEW_B), 13);
    assert_eq!(number(&mut controller, NEW_A), 8);
    assert_eq!(number(&mut controller, &NEW_A.replace("BSN", "BSR")), 0);
}

#[test]
fn no_room_at_all() {
    let store = Store::new(0);
    let mut controller = after(&store, &[HEADER]);
    assert_eq!(number(&mut controller, NEW_A), 13);
    assert_eq!(number(&mut controller, DELETE_A), 9);
}

#[test]
fn the_33rd_transaction() {
    for slots in [32, 33] {
        let store = Store::new(slots);
        let mut controller = after(&store, &[HEADER]);
        for count in 0..32 {
            assert_eq!(number(&mut controller, &cancelled('N', count)), 0);
        }
        assert_eq!(number(&mut controller, &cancelled('N', 0)), 8);
        assert_eq!(number(&mut controller, &cancelled('R', 32)), 9);
        assert_eq!(number(&mut controller, &cancelled('D', 32)), 9);
        for change in [('N', 32), ('R', 0), ('D', 0)] {
            assert_eq!(number(&mut controller, &cancelled(change.0, change.1)), 12);
        }
        assert_eq!(number(&mut controller, NEW_A), 12);
        assert_eq!(number(&mut controller, "TI"), 0);
        assert_eq!(number(&mut controller, TRAILER), 0);
    }
}

#[test]
fn the_9999th_row() {
    let store = holding(NEW_B);
    let mut controller = after(&store, &[HEADER]);
    for _ in 1..9_998 {
        assert_eq!(number(&mut controller, "AA"), 0);
    }
    assert_eq!(number(&mut controller, NEW_A), 13);
    assert_eq!(number(&mut controller, "TI"), 0);
    for (row, told) in [
        ("TI", 12),
        (NEW_A, 12),
        (NEW_B, 8),
        (DELETE_A, 9),
        (CALL, 4),
    ] {
        assert_eq!(number(&mut controller, row), told);
    }
    assert_eq!(number(&mut controller, TRAILER), 0);
    assert_eq!(
        controller.to_string(),
        "stage complete, rows 10000, pending 0"
    );
}

#[test]
fn the_9999th_row_on_the_way() {
    let store = Store::new(1);
    let mut controller = after(&store, &[HEADER, NEW_A, ORIGIN]);
    assert_eq!(
        number(&mut controller, "LIHALTA                  00000929"),
        0
    );
    while controller.rows() < 9_999 {
        assert_eq!(
            number(&mut controller, "LIHALTA                  00000000"),
            0
        );
    }
    for (row, told) in [
        (CALL, 12),
        ("LTHALTA        1004", 11),
        (END, 12),
        (TRAILER, 4),
    ] {
        assert_eq!(number(&mut controller, row), told);
    }
}
