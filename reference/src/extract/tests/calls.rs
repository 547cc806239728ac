//! The number of kept calls.

use super::*;
use crate::stores::record::CALLS;

/// A call at a place of this number.
fn call(place: usize) -> String {
    format!("LIT{place:<22}00000929")
}

#[test]
fn the_48th_and_the_49th() {
    let store = Store::new(1);
    let mut controller = after(&store, &[HEADER, NEW_A, "LOHALTA        0000"]);
    for place in 1..=CALLS {
        assert_eq!(number(&mut controller, &call(place)), 0);
    }
    assert_eq!(number(&mut controller, &call(49)), 10);
    assert_eq!(number(&mut controller, END), 10);
    assert_eq!(
        number(&mut controller, "LIHALTA                  00000000"),
        0
    );
    assert_eq!(number(&mut controller, "LTHALTA        0000"), 0);
    let told = controller.pending()[0].to_string();
    assert!(told.ends_with("destination \"HALTA  \", calls 48"));
}

#[test]
fn the_49th_is_told_above_the_third_at_its_place() {
    let store = Store::new(1);
    let mut controller = after(&store, &[HEADER, NEW_A, ORIGIN]);
    for place in (1..=23).chain(1..=24) {
        assert_eq!(number(&mut controller, &call(place)), 0);
    }
    assert_eq!(number(&mut controller, &call(1)), 10);
}
