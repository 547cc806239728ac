//! The conditions that a row meets by what was taken before it, from 7 to 13.

use super::controller::Controller;
use crate::forms::ExtractKind;
use crate::refusal::Reason;
use crate::row::{Change, Row, Schedule, Unread};
use crate::stores::record::{Key, CALLS, VISITS};

/// How many rows an extract may have before its ZZ row.
const ROWS: usize = 9_999;
/// How many transactions may be pending.
pub const TRANSACTIONS: usize = 32;

type Condition = fn(&Controller, &Row) -> bool;

/// The conditions with their columns, from the uppermost on.
const CONDITIONS: [(Reason, usize, Condition); 7] = [
    (Reason::References, 40, has_unfit_references),
    (Reason::Present, 4, is_new_but_present),
    (Reason::Absent, 4, is_old_but_absent),
    (Reason::Calls, 3, is_call_too_many),
    (Reason::Visits, 3, is_visit_too_many),
    (Reason::TooMany, 1, is_row_or_transaction_too_many),
    (Reason::Full, 1, is_new_but_full),
];

/// The uppermost condition that holds of a row which fits the stage and can be read, and its
/// column.
pub fn uppermost(controller: &Controller, row: &Row) -> Option<(Reason, usize)> {
    CONDITIONS
        .into_iter()
        .find(|(_, _, holds)| holds(controller, row))
        .map(|(reason, column, _)| (reason, column))
}

fn has_unfit_references(controller: &Controller, row: &Row) -> bool {
    let Row::Header(header) = row else {
        return false;
    };
    let blank = header.last.0.trim().is_empty();
    let kind_fits = match header.kind {
        ExtractKind::Full => blank,
        ExtractKind::Update => !blank,
    };
    !kind_fits || header.last != *controller.in_force() || header.last.0 == header.current.0
}

fn is_new_but_present(controller: &Controller, row: &Row) -> bool {
    schedule_of(row).is_some_and(|schedule| is_new(schedule) && is_present(controller, schedule))
}

fn is_old_but_absent(controller: &Controller, row: &Row) -> bool {
    schedule_of(row).is_some_and(|schedule| !is_new(schedule) && !is_present(controller, schedule))
}

fn is_call_too_many(controller: &Controller, row: &Row) -> bool {
    match (row.kept_at(), controller.begun()) {
        (Some(_), Some(record)) => record.calls.len() == CALLS,
        _ => false,
    }
}

fn is_visit_too_many(controller: &Controller, row: &Row) -> bool {
    match (row.kept_at(), controller.begun()) {
        (Some(tiploc), Some(record)) => record.visits(tiploc) == VISITS,
        _ => false,
    }
}

fn is_row_or_transaction_too_many(controller: &Controller, row: &Row) -> bool {
    let rows = controller.rows() == ROWS && *row != Row::Unread(Unread::Trailer);
    let transactions = controller.pending().len() == TRANSACTIONS && schedule_of(row).is_some();
    rows || transactions
}

fn is_new_but_full(controller: &Controller, row: &Row) -> bool {
    schedule_of(row).is_some_and(is_new) && controller.overlay().len() == controller.capacity()
}

fn schedule_of(row: &Row) -> Option<&Schedule> {
    match row {
        Row::Schedule(schedule) => Some(schedule),
        _ => None,
    }
}

fn is_new(schedule: &Schedule) -> bool {
    matches!(schedule.change, Change::New(_))
}

fn is_present(controller: &Controller, schedule: &Schedule) -> bool {
    controller.overlay().contains_key(&Key::of(schedule))
}
