use super::{script, Player, Pool};
use crate::calendar::Date;
use crate::generate::splitmix::SplitMix;
use crate::replay;
use crate::replay::script::{read, Call, History};
use crate::replay::side::{Answer, Side};
use crate::stores::record::Schedule;
use crate::stores::store::Store;
use std::sync::OnceLock;

/// How many histories the tests are about.
const COUNT: usize = 300;
/// A board is far where its day is more than so many past the last of all schedules that have one;
/// only a train with no end gives it a line.
const FAR: u32 = 31;

fn histories() -> &'static [History] {
    static HISTORIES: OnceLock<Vec<History>> = OnceLock::new();
    HISTORIES.get_or_init(|| {
        let lines = script(&mut SplitMix::new(6), COUNT);
        read(&lines.join(&b'\n')).unwrap()
    })
}

/// What the reference answers to the script of the histories.
fn played() -> &'static str {
    static PLAYED: OnceLock<String> = OnceLock::new();
    PLAYED.get_or_init(|| {
        let mut out = Vec::new();
        replay::print_histories(histories(), &mut out).unwrap();
        String::from_utf8(out).unwrap()
    })
}

/// How many of these texts hold one.
fn holding<'a>(texts: impl Iterator<Item = &'a str>, has: impl Fn(&str) -> bool) -> usize {
    texts.filter(|text| has(text)).count()
}

#[test]
fn most_histories_confirm_and_half_of_them_show() {
    let histories = || played().split("\nhistory ");
    let confirmed = holding(histories(), |text| text.contains(" confirm: done\n"));
    let shown = holding(histories(), |text| {
        let ends = text.split("\ntable: ").nth(1).unwrap_or_default();
        !ends.lines().next().unwrap_or_default().ends_with("lines 0")
    });
    assert!(confirmed > COUNT * 3 / 4, "{confirmed} confirmed");
    assert!(shown > COUNT * 2 / 5, "{shown} with lines");
}

#[test]
fn every_refusal_is_told() {
    for number in 1..=18 {
        let times = format!("\nrefused {number}: ");
        assert!(played().contains(&times), "{number}");
    }
}

/// How many lines each page has.
fn lines_of_pages() -> Vec<usize> {
    played()
        .split(" page: done\n")
        .skip(1)
        .map(|text| {
            let rows = text.lines().skip(2).take(10);
            rows.filter(|row| !row.starts_with("|    ")).count()
        })
        .collect()
}

#[test]
fn pages_are_full_or_not() {
    let pages = lines_of_pages();
    let times = |lines| pages.iter().filter(|page| **page == lines).count();
    let (none, full) = (times(0), times(10));
    assert!(none < pages.len() * 3 / 5, "{none} without lines");
    assert!(full > pages.len() / 60, "{full} full");
}

#[test]
fn one_call_in_eight_is_a_page() {
    let lines = script(&mut SplitMix::new(6), COUNT);
    let beginning = |word: &[u8]| lines.iter().filter(|line| line.starts_with(word)).count();
    let calls = lines.len() - beginning(b"new ") - beginning(b"other");
    let pages = beginning(b"page ");
    assert!((7..=9).contains(&(calls / pages)), "{pages} of {calls}");
}

#[test]
fn most_other_boards_are_the_same() {
    let told = played();
    let same = told.matches("\nboards: the same\n").count();
    let different = told.matches("\nboards: different\n").count();
    assert!(same > 2 * different, "{same} and {different}");
    assert!(!told.contains("other answers") && !told.contains("another board"));
}

#[test]
fn boards_are_the_same_with_the_trains_in_another_order() {
    let random = &mut SplitMix::new(7);
    let mut lines = 0;
    for slots in 0..120 {
        let (slots, pool) = (slots % 15, Pool::new(random));
        let mut player = Player::new(random, &pool, slots, 2 * slots);
        player.play(92, 138);
        let (told, board) = (player.told(), player.side.board);
        let mut other = Player::new(random, &pool, slots, 2 * slots);
        other.play_again(&told);
        if !told.extracts.is_empty() {
            assert!(other.side.board.tells_what(&board));
            lines += board.lines().len();
        }
    }
    assert!(lines > 90, "{lines}");
}

/// What the first controller of a history shows.
struct Boards {
    side: Side,
    /// After each turn and confirmation: the call, the day, and how many lines there are.
    shown: Vec<(&'static str, u32, usize)>,
    /// The last day of all schedules that have one.
    latest: u32,
}

impl Boards {
    fn of(history: &History) -> Boards {
        let mut side = Side::new(Store::new(history.slots), history.line_slots);
        let (mut shown, mut latest, mut turned) = (Vec::new(), 0, None);
        for call in &history.calls {
            if matches!(side.answer(call), Answer::Refused(_)) {
                continue;
            }
            match call {
                Call::Turn { day, .. } => turned = Some(*day),
                Call::Confirm => {
                    let ends = side.controller.store().schedules().filter_map(last_day);
                    latest = ends.fold(latest, u32::max);
                }
                _ => continue,
            }
            if let Some(day) = turned {
                shown.push((call.word(), day, side.board.lines().len()));
            }
        }
        Boards {
            side,
            shown,
            latest,
        }
    }

    /// How many far boards have lines after a call of this word.
    fn far(&self, word: &str) -> usize {
        let boards = self.shown.iter();
        let far = boards.filter(|(_, day, _)| *day > self.latest + FAR);
        far.filter(|(call, _, lines)| *call == word && *lines > 0)
            .count()
    }

    /// Whether the board ends with a line that goes when the schedules with no end do.
    fn ends_with_no_end(mut self) -> bool {
        let lines = self.side.board.lines().to_vec();
        let mut store = self.side.controller.store().clone();
        for schedule in self.side.controller.store().schedules() {
            if last_day(schedule).is_none() {
                store.remove(schedule.key());
            }
        }
        self.side.board.follow(&store);
        let left = self.side.board.lines();
        lines.iter().any(|line| !left.contains(line))
    }
}

fn last_day(schedule: &Schedule) -> Option<u32> {
    schedule.record().end.last_day().map(Date::number)
}

#[test]
fn far_boards_show_trains_with_no_end() {
    let all: Vec<Boards> = histories().iter().map(Boards::of).collect();
    for word in ["turn", "confirm"] {
        let shown: usize = all.iter().map(|boards| boards.far(word)).sum();
        assert!(shown > COUNT / 15, "{shown} after {word}");
    }
}

#[test]
fn one_board_in_ten_ends_with_a_train_with_no_end() {
    let boards = histories().iter().map(Boards::of);
    let shown = boards.map(Boards::ends_with_no_end);
    let count = shown.filter(|&shows| shows).count();
    assert!(count > COUNT / 10, "{count}");
}
