//! The waiting line for speed. It works on the bytes of the record where they lie, and on the
//! picture of the policy, in which an object's row is the set of groups that it is directly in:
//! so a climb needs no table turned. The policy is looked at by a join and in a call alone.

use super::record::word_at;
use super::*;
use crate::wide;
use crate::words::{at, bit, has, is_sort, refuse_if};

/// Where the rows and the rules of a picture start.
const ROWS_AT: usize = OBJECTS;
const RULES_AT: usize = PICTURE - 4 * RULES;

/// One event on the policy of a picture: the code, which is 0 but for a refused join.
pub fn happen(queue: &mut Queue, policy: &[u8; PICTURE], event: Event) -> u8 {
    match event {
        Event::Start { gear, n } => *queue = start(gear, n),
        Event::Join { user } => return join(queue, policy, user).err().unwrap_or(DONE),
        Event::Leave { user } => leave(queue, policy, user),
        Event::Tick => tick(queue, policy),
    }
    DONE
}

fn join(queue: &mut Queue, policy: &[u8; PICTURE], user: u8) -> Result<(), u8> {
    let gear = queue[GEAR_AT];
    refuse_if(!is(policy, user, MEMBER), 4)?;
    refuse_if(gear > 63, 5)?;
    refuse_if(!is_sort(policy[at(gear)]), 6)?;
    refuse_if(policy[at(gear)] != GEAR, 7)?;
    refuse_if(!Radio::of(policy, gear).permits(user), 9)?;
    let there = there(queue);
    refuse_if(has(there, user), ALREADY_THERE)?;
    if there == 0 {
        hold(queue, user);
        set_waiters(queue, 0, 0);
        return Ok(());
    }
    let (waiters, count) = waiters(queue);
    refuse_if(count == MOST_WAITERS, LINE_FULL)?;
    set_waiters(queue, waiters | (user as u64) << (8 * count), count + 1);
    Ok(())
}

fn leave(queue: &mut Queue, policy: &[u8; PICTURE], user: u8) {
    if !has(there(queue), user) {
        return;
    }
    if queue[HOLDER_AT] == user {
        return call(queue, policy);
    }
    let (waiters, count) = waiters(queue);
    let places = waiters.to_le_bytes();
    let place = (0..count).find(|&place| places[place] == user);
    let ahead = low_bytes(place.expect("he is there and is not the holder"));
    set_waiters(queue, waiters & ahead | (waiters >> 8) & !ahead, count - 1);
}

fn tick(queue: &mut Queue, policy: &[u8; PICTURE]) {
    if there(queue) == 0 {
        return;
    }
    let left = word_at(queue, LEFT_AT);
    if left == 1 {
        return call(queue, policy);
    }
    set_left(queue, left - 1);
    let (waiters, count) = waiters(queue);
    set_waiters(queue, waiters, count);
}

/// The holder and the waiters as a set; the empty set if the radio is free or the record
/// malformed.
fn there(queue: &Queue) -> u64 {
    let holder = queue[HOLDER_AT];
    let left = word_at(queue, LEFT_AT);
    let held = queue[MARK_AT] == HELD
        && queue[COUNT_AT] as usize <= MOST_WAITERS
        && holder < 64
        && (1..=turn_length(queue)).contains(&left);
    if !held {
        return 0;
    }
    let mut there = bit(holder);
    for &user in &queue[WAITERS_AT..][..queue[COUNT_AT] as usize] {
        if user > 63 || has(there, user) {
            return 0;
        }
        there |= bit(user);
    }
    there
}

/// The waiters, a byte for each and the first in the lowest, and their number, which is at most
/// 8. Behind the last are zeros.
fn waiters(queue: &Queue) -> (u64, usize) {
    let count = queue[COUNT_AT] as usize;
    let word = u64::from_le_bytes(queue[WAITERS_AT..].try_into().expect("eight bytes"));
    (word & low_bytes(count), count)
}

fn set_waiters(queue: &mut Queue, waiters: u64, count: usize) {
    queue[COUNT_AT] = count as u8;
    queue[WAITERS_AT..].copy_from_slice(&waiters.to_le_bytes());
}

fn set_left(queue: &mut Queue, left: u16) {
    queue[LEFT_AT..LEFT_AT + 2].copy_from_slice(&left.to_le_bytes());
}

/// Ones in so many of the lowest bytes.
fn low_bytes(count: usize) -> u64 {
    if count < 8 {
        !(u64::MAX << (8 * count))
    } else {
        u64::MAX
    }
}

fn hold(queue: &mut Queue, user: u8) {
    queue[MARK_AT] = HELD;
    queue[HOLDER_AT] = user;
    set_left(queue, turn_length(queue));
}

/// A call on a record that is well formed and held.
fn call(queue: &mut Queue, policy: &[u8; PICTURE]) {
    let (waiters, count) = waiters(queue);
    if count > 0 {
        let radio = Radio::of(policy, queue[GEAR_AT]);
        for (place, user) in waiters.to_le_bytes().into_iter().enumerate().take(count) {
            if radio.permits(user) {
                hold(queue, user);
                // Two shifts, since one by all 64 bits would leave the word as it is.
                return set_waiters(queue, waiters >> (8 * place) >> 8, count - place - 1);
            }
        }
    }
    queue[MARK_AT..].fill(0);
}

/// Is the number that of an object of this sort?
fn is(policy: &[u8; PICTURE], x: u8, sort: u8) -> bool {
    x < 64 && policy[at(x)] == sort
}

/// A gear on a policy: the groups in use, and the U of every rule that gives operation 2 on it.
struct Radio<'a> {
    policy: &'a [u8; PICTURE],
    groups: u64,
    users: u64,
}

impl Radio<'_> {
    fn of(policy: &[u8; PICTURE], gear: u8) -> Radio<'_> {
        let sorts: &[u8; OBJECTS] = policy[..OBJECTS].try_into().expect("64 sorts");
        let [groups, ..] = wide::sorts(sorts);
        let mut radio = Radio {
            policy,
            groups,
            users: 0,
        };
        if is(policy, gear, GEAR) {
            let over = radio.over(gear);
            for rule in policy[RULES_AT..].chunks_exact(4) {
                let &[mark, u, t, ops] = rule else {
                    unreachable!("chunks of 4")
                };
                let gives = (mark == 1) & (ops >> TRANSMIT & 1 == 1) & has(over, t) & (u < 64);
                radio.users |= (gives as u64) << (u % 64);
            }
        }
        radio
    }

    /// All that an object in use is under.
    fn over(&self, x: u8) -> u64 {
        let mut over = bit(x);
        let mut next = over;
        while next != 0 {
            let row_at = ROWS_AT + 8 * next.trailing_zeros() as usize;
            let row = self.policy[row_at..row_at + 8].try_into();
            let new = u64::from_le_bytes(row.expect("eight bytes")) & self.groups & !over;
            next = next & (next - 1) | new;
            over |= new;
        }
        over
    }

    fn permits(&self, user: u8) -> bool {
        is(self.policy, user, MEMBER) && self.over(user) & self.users != 0
    }
}
