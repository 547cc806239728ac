//! What the tests share: rows, and controllers that have taken some.

mod calls;
mod confirmed;
mod limits;
mod printed;
mod refusals;
mod stages;

use super::controller::Controller;
use crate::identity::Identity;
use crate::refusal::ExtractFault;
use crate::stores::store::Store;

const HEADER: &str = "HD                              DFROC1A       F";
const TRAILER: &str = "ZZ";
const EXTRA: &str = "BX         GX";
const ORIGIN: &str = "LOHALTA        09054";
const CALL: &str = "LIMARLYND 0914 0915      091409152";
const CHANGE: &str = "CRMARLYND";
const END: &str = "LTSANDPT       10042";
const NEW_A: &str =
    "BSNA000012312112405311111100    1A01                                           P";
const NEW_B: &str =
    "BSNB000012312112405311111100    1B01                                           P";
const CANCEL_A: &str =
    "BSNA000012312112405311111100    1A01                                           C";
const DELETE_A: &str =
    "BSDA00001231211                                                                P";

/// The rows of a whole schedule that begins with this BS row.
fn whole(schedule: &str) -> [&str; 3] {
    [schedule, ORIGIN, END]
}

/// A controller over such a store that has taken these rows.
fn after(store: &Store, rows: &[&str]) -> Controller {
    let mut controller = Controller::new(store.clone());
    for row in rows {
        hand(&mut controller, row).unwrap_or_else(|fault| panic!("{row}: {fault}"));
    }
    controller
}

/// Hands on a row of these bytes, filled up with blanks, as the program does.
fn hand(controller: &mut Controller, row: &str) -> Result<Identity, ExtractFault> {
    controller.hand(format!("{row:80}").as_bytes())
}

/// The number that the row is refused with, or 0 where it is taken.
fn number(controller: &mut Controller, row: &str) -> u32 {
    hand(controller, row).map_or_else(|fault| fault.refusal.reason.number(), |_| 0)
}
