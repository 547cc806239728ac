//! A script of histories: extracts in a row over a small store, of few trains, days and stations,
//! so that keys meet and boards have lines. Most calls are lawful, and faults of every sort are
//! planted among them. About one in eight calls asks for a page, and in some histories so many
//! trains run from one station that a page has not room for all. In about a quarter of the
//! histories the second controller has calls of its own, most often the same transactions with the
//! trains in another order.

mod crowd;
mod extracts;
mod faults;
mod others;
mod pages;
mod player;
mod pool;

use super::splitmix::SplitMix;
use crate::replay::script::Call;
use player::Player;
use pool::Pool;

/// The most calls of a history, both controllers' together but for a few.
const MOST: usize = 230;

/// The lines of a script with so many histories.
pub fn script(random: &mut SplitMix, count: usize) -> Vec<Vec<u8>> {
    (0..count).flat_map(|_| history(random)).collect()
}

fn history(random: &mut SplitMix) -> Vec<Vec<u8>> {
    let crowded = random.once_in(6);
    let slots = if crowded {
        11 + random.index(14)
    } else {
        slots(random)
    };
    let line_slots = line_slots(random, slots);
    let pool = Pool::new(random);
    let others = random.once_in(4);
    let most = if others { MOST / 2 } else { MOST };
    let wanted = 30 + random.index(most - 60);
    let mut player = Player::new(random, &pool, slots, line_slots);
    if crowded {
        player.crowd();
    }
    player.play(wanted.max(player.calls.len()), most);
    let calls = player.calls.clone();
    let mut lines = vec![format!("new {slots} {line_slots}").into_bytes()];
    lines.extend(calls.iter().map(Call::line));
    if others {
        lines.push(b"other".to_vec());
        let told = player.told();
        let mut other = Player::new(random, &pool, slots, line_slots);
        if told.extracts.is_empty() || other.random.once_in(5) {
            let wanted = 5 + other.random.index(30);
            other.play(wanted, most);
        } else {
            other.play_again(&told);
        }
        lines.extend(other.calls.iter().map(Call::line));
    }
    lines
}

/// From 0 to 12 slots, and now and then some more.
fn slots(random: &mut SplitMix) -> usize {
    match random.below(24) {
        0 => 0,
        1 | 2 => 1,
        3 => 13 + random.index(30),
        _ => 2 + random.index(11),
    }
}

/// Twice the slots or a few more; once in ten times fewer.
fn line_slots(random: &mut SplitMix, slots: usize) -> usize {
    match random.below(10) {
        0 if slots > 0 && random.once_in(2) => 2 * slots - 1,
        0 if slots > 0 => random.index(2 * slots),
        1..=3 => 2 * slots + 1 + random.index(5),
        _ => 2 * slots,
    }
}

#[cfg(test)]
mod tests;
