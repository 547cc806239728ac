//! Pseudo-random rows, schedules, extracts and histories of calls: most are lawful, some have a
//! planted fault.

mod extracts;
mod faulty;
mod histories;
mod lawful;
mod schedules;
mod spec;
mod splitmix;

use splitmix::SplitMix;
use std::io::{self, Write};

/// What the rows of a sample are.
#[derive(Clone, Copy)]
pub enum Kind {
    /// Rows in no order.
    Rows,
    /// One extract, counted in schedules.
    Schedules,
    /// Extracts one after another.
    Extracts,
    /// A script of histories of calls.
    Histories,
}

impl Kind {
    /// The kind that the command of this name makes.
    pub fn named(name: &str) -> Option<Kind> {
        match name {
            "generate" => Some(Kind::Rows),
            "generate-schedules" => Some(Kind::Schedules),
            "generate-extracts" => Some(Kind::Extracts),
            "generate-histories" => Some(Kind::Histories),
            _ => None,
        }
    }
}

/// A sample; one seed gives always the same.
pub struct Sample {
    pub kind: Kind,
    pub seed: u64,
    pub count: usize,
}

impl Sample {
    /// Prints the rows, or the lines of the script, each ended by a line feed.
    pub fn print(&self, out: &mut impl Write) -> io::Result<()> {
        for row in self.rows() {
            out.write_all(&row)?;
            out.write_all(b"\n")?;
        }
        Ok(())
    }

    fn rows(&self) -> Vec<Vec<u8>> {
        let random = &mut SplitMix::new(self.seed);
        match self.kind {
            Kind::Rows => (0..self.count).map(|_| row(random)).collect(),
            Kind::Schedules => schedules::extract(random, self.count),
            Kind::Extracts => extracts::extracts(random, self.count),
            Kind::Histories => histories::script(random, self.count),
        }
    }
}

fn row(random: &mut SplitMix) -> Vec<u8> {
    if random.once_in(4) {
        faulty::row(random)
    } else {
        let sort = lawful::sort(random);
        lawful::row(random, sort)
    }
}

#[cfg(test)]
mod tests {
    use super::*;
    use crate::forms::End;
    use crate::replay::script::{self, Call};
    use crate::row::{Change, Row};
    use spec::Sort;

    #[test]
    fn lawful_rows_are_read() {
        let mut random = SplitMix::new(1);
        for _ in 0..20_000 {
            let sort = lawful::sort(&mut random);
            assert!(Row::read(&lawful::row(&mut random, sort)).is_ok());
        }
    }

    #[test]
    fn one_schedule_in_ten_has_no_end() {
        let mut random = SplitMix::new(5);
        for sort in [Sort::CHANGED, Sort::DELETED] {
            let rows = (0..10_000).map(|_| lawful::row(&mut random, sort));
            let endless = rows.filter(|row| row[15..21] == *End::NO_END).count();
            assert!((900..1_100).contains(&endless), "{endless}");
        }
    }

    /// The end that the row gives a schedule, if it is read as one that is new or revised.
    fn end(row: &[u8]) -> Option<End> {
        let Row::Schedule(schedule) = Row::read(row).ok()?.1 else {
            return None;
        };
        match schedule.change {
            Change::New(running) | Change::Revised(running) => Some(running.end),
            Change::Deleted => None,
        }
    }

    /// The rows of random histories that are not handed by open.
    fn rows_of_histories(random: &mut SplitMix) -> Vec<Vec<u8>> {
        let lines = histories::script(random, 200);
        let histories = script::read(&lines.join(&b'\n')).unwrap();
        let calls = histories.into_iter().flat_map(|history| history.calls);
        calls
            .filter_map(|call| match call {
                Call::Row(row) => Some(row),
                _ => None,
            })
            .collect()
    }

    #[test]
    fn one_schedule_in_ten_of_files_and_histories_has_no_end() {
        let random = &mut SplitMix::new(9);
        for rows in [
            schedules::extract(random, 4_000),
            extracts::extracts(random, 400),
            rows_of_histories(random),
        ] {
            let ends: Vec<End> = rows.iter().filter_map(|row| end(row)).collect();
            let endless = ends.iter().filter(|end| **end == End::NoEnd).count();
            assert!(
                (ends.len() / 11..ends.len() / 9).contains(&endless),
                "{endless}"
            );
        }
    }

    #[test]
    fn faulty_rows_are_refused_but_for_deletions() {
        let mut random = SplitMix::new(2);
        for _ in 0..20_000 {
            let row = faulty::row(&mut random);
            assert!(Row::read(&row).is_err() || row.starts_with(b"BSD"));
        }
    }
}
