//! Records of a waiting line, of any value.

use super::{gear, turn};
use crate::generate::draw::Draw;
use crate::generate::Rng;
use crate::line::{self, Queue};
use crate::sheet::*;

/// A record of any value: pure junk, or one that is sound or has a fault or two, with junk where
/// nothing is looked at.
pub fn queue(rng: &mut Rng, sheet: &Sheet) -> Queue {
    if rng.percent(5) {
        return [0; line::QUEUE].map(|_| rng.byte());
    }
    let mut queue = sound(rng, sheet);
    for _ in 0..rng.pick(&[0, 0, 1, 1, 2]) {
        spoil(rng, &mut queue);
    }
    queue
}

/// A record without a fault. Places past the count are junk or 0, and so is all of a free radio
/// but its count.
fn sound(rng: &mut Rng, sheet: &Sheet) -> Queue {
    let mut queue = line::start(gear(rng, sheet), turn(rng));
    let junk = rng.percent(50);
    if junk {
        queue[line::MARK_AT..].fill_with(|| rng.byte());
    }
    queue[line::COUNT_AT] = 0;
    if rng.percent(10) {
        queue[line::MARK_AT] = rng.pick(&[0, 0, 2, 3, 255]);
        return queue;
    }
    let mut users = distinct(rng, sheet);
    let n = line::turn_length(&queue) as usize;
    let left = if rng.percent(60) {
        1
    } else {
        1 + rng.below(n) as u16
    };
    queue[line::MARK_AT] = line::HELD;
    queue[line::HOLDER_AT] = users.pop().expect("one at least");
    queue[line::LEFT_AT..line::LEFT_AT + 2].copy_from_slice(&left.to_le_bytes());
    queue[line::COUNT_AT] = users.len() as u8;
    queue[line::WAITERS_AT..][..users.len()].copy_from_slice(&users);
    queue
}

/// One to nine numbers of the table, none twice, most of them members if there are so many.
fn distinct(rng: &mut Rng, sheet: &Sheet) -> Vec<u8> {
    let wanted = if rng.percent(30) { 9 } else { 1 + rng.below(9) };
    let mut users = Vec::new();
    while users.len() < wanted {
        let user = if rng.percent(60) {
            Draw::new(rng, sheet).of_sort(MEMBER)
        } else {
            rng.below(64) as u8
        };
        if !users.contains(&user) {
            users.push(user);
        }
    }
    users
}

/// One field made wrong, or something that is not.
fn spoil(rng: &mut Rng, queue: &mut Queue) {
    let place = line::WAITERS_AT + rng.below(8);
    let n = line::turn_length(queue);
    match rng.below(9) {
        0 => queue[line::COUNT_AT] = rng.pick(&[9, 10, 16, 128, 255]),
        1 => queue[place] = queue[line::HOLDER_AT],
        2 => queue[place] = queue[line::WAITERS_AT + rng.below(8)],
        3 => queue[line::HOLDER_AT] = rng.pick(&[64, 65, 128, 255]),
        4 => queue[place] = rng.pick(&[64, 65, 128, 255]),
        5 => queue[line::MARK_AT] = rng.pick(&[0, 2, 3, 128, 129, 255]),
        6 => {
            let left = rng.pick(&[0, n, n + 1, 601, 65535]);
            queue[line::LEFT_AT..line::LEFT_AT + 2].copy_from_slice(&left.to_le_bytes());
        }
        7 => queue[line::COUNT_AT] = rng.below(9) as u8,
        _ => {
            let at = rng.below(line::QUEUE);
            queue[at] = rng.byte();
        }
    }
}
