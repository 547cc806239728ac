//! What a confirmation does, and when it is refused.

use super::*;
use crate::board::turned::Board;
use crate::forms::LastReference;

/// A board of so many line slots, at HALTA on a Monday that the schedules here run on.
fn board(store: &Store, slots: usize) -> Board {
    let mut board = Board::new(slots);
    board.turn(store, b"HALTA  ", 23_439).unwrap();
    board
}

fn lines(board: &Board) -> Vec<String> {
    board.lines().iter().map(ToString::to_string).collect()
}

/// The header of an update with this current and last reference.
fn update(current: &str, last: &str) -> String {
    format!("{:32}{current}{last}U", "HD")
}

const LINE: &str = "09:05 SANDPT  platform 4   operator    identity 1A01";

#[test]
fn a_board_follows_and_what_is_pending_does_not_show() {
    for store in [Store::new(1), Store::bag(1)] {
        let mut board = board(&store, 2);
        let mut controller = after(&store, &[&[HEADER], &whole(NEW_A)[..], &[TRAILER]].concat());
        assert!(lines(&board).is_empty());
        controller.turn(&mut board, b"HALTA  ", 23_439).unwrap();
        assert!(lines(&board).is_empty());
        controller.confirm(&mut board).unwrap();
        assert_eq!(lines(&board), [LINE]);
        assert_eq!(
            (controller.to_string().as_str(), controller.tally()),
            ("stage idle, rows 0, pending 0", 1)
        );
        assert_eq!(controller.in_force(), &LastReference("DFROC1A".to_owned()));
        assert_eq!(number(&mut controller, HEADER), 7);
        for (row, told) in [(&update("DFROC1B", "DFROC1A")[..], 0), (DELETE_A, 0)] {
            assert_eq!(number(&mut controller, row), told);
        }
        for row in whole(NEW_B).into_iter().chain([TRAILER]) {
            assert_eq!(number(&mut controller, row), 0);
        }
        assert_eq!(lines(&board), [LINE]);
        controller.confirm(&mut board).unwrap();
        assert_eq!(lines(&board), [LINE.replace("1A01", "1B01")]);
        assert_eq!((controller.tally(), controller.store().count()), (3, 1));
    }
}

#[test]
fn a_board_without_a_station_stays_empty() {
    let mut board = Board::new(2);
    let rows = [&[HEADER], &whole(NEW_A)[..], &[TRAILER]].concat();
    after(&Store::new(1), &rows).confirm(&mut board).unwrap();
    assert_eq!(
        (board.to_string().as_str(), board.lines().len()),
        ("board without a station", 0)
    );
}

#[test]
fn refused_before_the_end_and_with_too_few_line_slots() {
    let store = Store::new(1);
    let too_early =
        "refused 4, column 0, identity \"  \", row 0: the row or call does not fit the stage";
    let too_few = "refused 15, column 0, identity \"  \", row 0: too few line slots";
    let mut controller = after(&store, &[&[HEADER], &whole(NEW_A)[..]].concat());
    let fault = controller.confirm(&mut Board::new(1)).unwrap_err();
    assert_eq!(fault.to_string(), too_early);
    assert_eq!(number(&mut controller, TRAILER), 0);
    let mut small = Board::new(1);
    assert_eq!(
        controller.confirm(&mut small).unwrap_err().to_string(),
        too_few
    );
    let fault = controller.turn(&mut small, b"HALTA  ", 23_439).unwrap_err();
    assert_eq!(fault.to_string(), too_few);
    let told = "stage complete, rows 5, pending 1";
    assert_eq!(controller.to_string(), told);
    controller.abandon().unwrap();
    assert_eq!((controller.tally(), controller.store().count()), (0, 0));
    assert_eq!(number(&mut controller, HEADER), 0);
}

#[test]
fn no_such_station_or_day() {
    let told = "refused 14, column 0, identity \"  \", row 0: no such station or day";
    let controller = after(&Store::new(1), &[]);
    let mut small = Board::new(1);
    for (station, day) in [
        (&b""[..], 0),
        (b"HALTA", 0),
        (b"HALTA   ", 0),
        (b"halta  ", 0),
        (b"HALTA\xff ", 0),
        (b"HALTA  ", 36_525),
    ] {
        let fault = controller.turn(&mut small, station, day).unwrap_err();
        assert_eq!(fault.to_string(), told);
    }
    let mut board = board(&Store::new(1), 2);
    assert!(controller.turn(&mut board, b"HALTA", 0).is_err());
    assert_eq!(board.to_string(), "board HALTA   day 23439");
    controller.turn(&mut board, b"HALTA  ", 36_524).unwrap();
    assert_eq!(board.to_string(), "board HALTA   day 36524");
}

#[test]
fn the_tally_stays_at_its_largest() {
    let store = Store::new(1);
    let rows = [HEADER, CANCEL_A, TRAILER];
    let mut controller = after(&store, &rows);
    controller.set_tally(u32::MAX);
    controller.confirm(&mut Board::new(2)).unwrap();
    assert_eq!(controller.tally(), 4_294_967_295);
}
