//! Each refusal, and which of two is told.

use super::*;

const RUNNING: [&str; 3] = [HEADER, NEW_A, ORIGIN];
const TWICE: [&str; 4] = [HEADER, NEW_A, ORIGIN, "LIHALTA  2               00000929"];

/// What is told of a row after these, over a store of so many slots; nothing changes.
fn told(slots: usize, rows: &[&str], row: &[u8]) -> String {
    let store = Store::new(slots);
    let mut controller = after(&store, rows);
    let kept = (controller.to_string(), format!("{:?}", controller.begun()));
    let fault = controller.hand(row).unwrap_err();
    let keeps = (controller.to_string(), format!("{:?}", controller.begun()));
    assert_eq!(kept, keeps);
    let text = fault.to_string();
    text.split(": ").next().unwrap().to_owned()
}

/// A row of these bytes is refused as this says, over a store of one slot.
fn refused(rows: &[&str], row: &str, says: &str) {
    let row = format!("{row:80}");
    assert_eq!(told(1, rows, row.as_bytes()), format!("refused {says}"));
}

#[test]
fn length_byte_and_identity() {
    let says = "refused 1, column 0, identity \"  \", row 2";
    for row in ["", "H", "ZZ", &" ".repeat(79), &"\t".repeat(81)] {
        assert_eq!(told(1, &[HEADER], row.as_bytes()), says);
    }
    let says = "refused 1, column 0, identity \"  \", row 1";
    assert_eq!(told(1, &[], b"HD"), says);
    refused(&[], "HD\t\t", "2, column 3, identity \"  \", row 1");
    refused(&[HEADER], "zz \t", "2, column 4, identity \"  \", row 2");
    refused(&[HEADER], "LO \t", "2, column 4, identity \"  \", row 2");
    refused(&[], "zz", "3, column 1, identity \"  \", row 1");
}

#[test]
fn stage_above_what_the_row_holds() {
    let says = "4, column 1, identity \"LO\", row 2";
    refused(&[HEADER], "LO HALTA", says);
    let says = "4, column 1, identity \"HD\", row 2";
    refused(&[HEADER], "HD", says);
    refused(&[HEADER], &HEADER.replace('F', "U"), says);
    let says = "4, column 1, identity \"BS\", row 4";
    refused(&RUNNING, NEW_A, says);
    refused(&RUNNING, &NEW_A.replace("240531", "220531"), says);
}

#[test]
fn forms_and_days() {
    let reversed = NEW_A.replace("240531", "220531");
    let says = "5, column 33, identity \"BS\", row 2";
    refused(&[HEADER], &reversed.replace("1A01", "1a01"), says);
    refused(&[HEADER], &reversed, "6, column 16, identity \"BS\", row 2");
    let revised = reversed.replace("BSN", "BSR");
    refused(&[HEADER], &revised, "6, column 16, identity \"BS\", row 2");
    let says = "5, column 10, identity \"BS\", row 2";
    refused(&[HEADER], &NEW_A.replace("231211", "999999"), says);
    let says = "5, column 16, identity \"BS\", row 2";
    refused(&[HEADER], &NEW_A.replace("240531", "999998"), says);
    let rows = [&[HEADER], &whole(NEW_A)[..]].concat();
    let says = "5, column 22, identity \"BS\", row 5";
    refused(&rows, &NEW_A.replace("1111100", "1111120"), says);
    refused(&rows, &reversed, "6, column 16, identity \"BS\", row 5");
}

#[test]
fn references() {
    let head = "HD                              DFROC1A";
    let says = "7, column 40, identity \"HD\", row 1";
    for rest in ["DFROC19U", "DFROC1AU", "       U", "DFROC19F", "DFROC1AF"] {
        refused(&[], &format!("{head}{rest}"), says);
    }
    let says = "5, column 47, identity \"HD\", row 1";
    refused(&[], &format!("{head}DFROC19X"), says);
}

#[test]
fn keys() {
    let rows = [&[HEADER], &whole(NEW_A)[..]].concat();
    refused(&rows, NEW_A, "8, column 4, identity \"BS\", row 5");
    let says = "9, column 4, identity \"BS\", row 5";
    refused(&rows, &NEW_B.replace("BSN", "BSR"), says);
    refused(&rows, &DELETE_A.replace('A', "B"), says);
    refused(&rows, NEW_B, "13, column 1, identity \"BS\", row 5");
    let deleted = [&rows[..], &[DELETE_A]].concat();
    refused(&deleted, DELETE_A, "9, column 4, identity \"BS\", row 6");
}

#[test]
fn visits() {
    let says = "11, column 3, identity \"LI\", row 5";
    refused(&TWICE, "LIHALTA  3               09300000", says);
    let says = "11, column 3, identity \"LT\", row 5";
    refused(&TWICE, "LTHALTA        10042", says);
    let store = Store::new(1);
    let mut controller = after(&store, &TWICE);
    assert_eq!(
        number(&mut controller, "LIHALTA                  00000000"),
        0
    );
    assert_eq!(number(&mut controller, "LTHALTA        0000"), 0);
    let told = controller.pending()[0].to_string();
    assert!(told.ends_with("operator \"  \", destination \"HALTA  \", calls 2"));
}
