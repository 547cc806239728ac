//! Which rows each stage takes, and the stage after.

use super::super::stage::Stage;
use super::*;
use crate::refusal::{Reason, Refusal};

const DELETED_A: [&str; 4] = [NEW_A, ORIGIN, END, DELETE_A];

/// A row of each identity that has its form and, but for BS, meets no condition beyond the stage.
const ROWS: [&str; 12] = [
    HEADER, NEW_B, EXTRA, ORIGIN, CALL, END, CHANGE, "TI", "TA", "TD", "AA", TRAILER,
];

/// Rows that lead to a stage, that stage, and the identities it takes with the stage after each.
type Case = (Vec<&'static str>, Stage, Vec<(&'static str, Stage)>);

fn table() -> Vec<Case> {
    use Stage::{Begun, Between, Changed, Complete, Extra, Idle, Running};
    let between = vec![
        ("BS", Begun),
        ("TI", Between),
        ("TA", Between),
        ("TD", Between),
        ("AA", Between),
        ("ZZ", Complete),
    ];
    let running = vec![("LI", Running), ("CR", Changed), ("LT", Between)];
    let begun = vec![HEADER, NEW_A];
    let extra = [&begun[..], &[EXTRA]].concat();
    let origin = [&extra[..], &[ORIGIN]].concat();
    let changed = [&origin[..], &[CHANGE]].concat();
    let ended = [&[HEADER], &DELETED_A[..]].concat();
    vec![
        (vec![], Idle, vec![("HD", Between)]),
        (vec![HEADER], Between, between.clone()),
        (vec![HEADER, CANCEL_A], Between, between.clone()),
        (ended, Between, between),
        (begun, Begun, vec![("BX", Extra), ("LO", Running)]),
        (extra, Extra, vec![("LO", Running)]),
        (origin, Running, running),
        (changed, Changed, vec![("LI", Running)]),
        (vec![HEADER, TRAILER], Complete, vec![]),
    ]
}

#[test]
fn every_identity_in_every_stage() {
    let store = Store::new(5);
    for (rows, stage, taken) in table() {
        assert_eq!(after(&store, &rows).stage(), stage);
        for row in ROWS {
            let mut controller = after(&store, &rows);
            let told = hand(&mut controller, row);
            match taken.iter().find(|(identity, _)| row.starts_with(identity)) {
                Some((identity, next)) => {
                    assert_eq!(told.unwrap().code(), *identity);
                    assert_eq!(
                        (controller.stage(), controller.rows()),
                        (*next, rows.len() + 1)
                    );
                }
                None => {
                    let fault = told.unwrap_err();
                    let identity = Identity::of(&row.as_bytes()[..2]).unwrap();
                    let refusal = Refusal::of_row(identity, Reason::Stage, 1);
                    assert_eq!((fault.refusal, fault.row), (refusal, rows.len() + 1));
                    assert_eq!((controller.stage(), controller.rows()), (stage, rows.len()));
                }
            }
        }
    }
}

#[test]
fn rows_by_the_other_call() {
    let store = Store::new(5);
    let told =
        "refused 4, column 1, identity \"HD\", row 1: the row or call does not fit the stage";
    let fault = Controller::new(store.clone()).row(format!("{HEADER:80}").as_bytes());
    assert_eq!(fault.unwrap_err().to_string(), told);
    let told =
        "refused 4, column 1, identity \"TI\", row 2: the row or call does not fit the stage";
    let fault = after(&store, &[HEADER]).open(format!("{:80}", "TI").as_bytes());
    assert_eq!(fault.unwrap_err().to_string(), told);
}

#[test]
fn abandoned_from_every_stage() {
    let store = Store::new(5);
    let told =
        "refused 4, column 0, identity \"  \", row 0: the row or call does not fit the stage";
    for (rows, stage, _) in table() {
        let mut controller = after(&store, &rows);
        if stage != Stage::Idle {
            controller.abandon().unwrap();
        }
        assert_eq!(controller.to_string(), "stage idle, rows 0, pending 0");
        assert!(controller.begun().is_none() && controller.overlay().is_empty());
        assert_eq!(controller.abandon().unwrap_err().to_string(), told);
        assert_eq!(number(&mut controller, HEADER), 0);
    }
}
