//! The 16 bytes of a waiting line: what is stored in them, and when they are malformed.

use super::*;

/// "N from 1 to 600; 0 counts as 1, more than 600 as 600." It is stored as it was given.
pub fn turn_length(queue: &Queue) -> u16 {
    match word_at(queue, N_AT) {
        0 => 1,
        n if n > LONGEST_TURN => LONGEST_TURN,
        n => n,
    }
}

pub fn word_at(queue: &Queue, at: usize) -> u16 {
    u16::from_le_bytes([queue[at], queue[at + 1]])
}

pub fn stored_turn(queue: &Queue) -> Option<Turn> {
    (queue[MARK_AT] == HELD).then_some(Turn {
        holder: queue[HOLDER_AT],
        left: word_at(queue, LEFT_AT),
    })
}

/// The places up to the count, at most all of them. Those past it are not looked at.
pub fn stored_waiters(queue: &Queue) -> &[u8] {
    let count = (queue[COUNT_AT] as usize).min(MOST_WAITERS);
    &queue[WAITERS_AT..WAITERS_AT + count]
}

/// "A record with more than 8 waiters, a member twice (the holder counted), a holder or waiter
/// above 63, waiters while the radio is free, or a held radio whose ticks left aren't 1 to N."
pub fn malformed(queue: &Queue) -> bool {
    let turn = stored_turn(queue);
    let holder = turn.map(|turn| turn.holder);
    let there: Vec<u8> = holder
        .into_iter()
        .chain(stored_waiters(queue).iter().copied())
        .collect();
    queue[COUNT_AT] as usize > MOST_WAITERS
        || one_comes_twice(&there)
        || there.iter().any(|&user| user > 63)
        || (turn.is_none() && queue[COUNT_AT] > 0)
        || turn.is_some_and(|turn| turn.left < 1 || turn.left > turn_length(queue))
}

fn one_comes_twice(users: &[u8]) -> bool {
    (0..users.len()).any(|later| users[..later].contains(&users[later]))
}

/// Writes a line over the record. The gear and N stay; what the line doesn't need is 0.
pub fn write(queue: &mut Queue, line: &Line) {
    queue[MARK_AT..].fill(0);
    if let Some(Turn { holder, left }) = line.turn {
        queue[MARK_AT] = HELD;
        queue[HOLDER_AT] = holder;
        queue[LEFT_AT..LEFT_AT + 2].copy_from_slice(&left.to_le_bytes());
    }
    queue[COUNT_AT] = line.waiters.len() as u8;
    queue[WAITERS_AT..][..line.waiters.len()].copy_from_slice(&line.waiters);
}
