//! The board's waiting line: one record of 16 bytes, lent and altered where it lies.

use crate::line::{Event, Queue};
use crate::sheet::PICTURE;

extern "C" {
    fn selkaum_queue_start(gear: u8, n: u16, queue: *mut u8, queue_len: usize) -> u8;

    fn selkaum_queue_join(
        policy: *const u8,
        policy_len: usize,
        queue: *mut u8,
        queue_len: usize,
        user: u8,
    ) -> u8;

    fn selkaum_queue_leave(
        policy: *const u8,
        policy_len: usize,
        queue: *mut u8,
        queue_len: usize,
        user: u8,
    ) -> u8;

    fn selkaum_queue_tick(
        policy: *const u8,
        policy_len: usize,
        queue: *mut u8,
        queue_len: usize,
    ) -> u8;
}

/// What an entry point returns where the policy is not 960 or the queue not 16 bytes long.
pub const NO_EVENT: u8 = 255;

/// The entry point of an event as it is: alters the queue, if the lengths fit, and returns the
/// code, or else 255. A start is given no policy.
pub fn happen_into(queue: &mut [u8], policy: &[u8], event: Event) -> u8 {
    let (queue_len, queue) = (queue.len(), queue.as_mut_ptr());
    let (policy_len, policy) = (policy.len(), policy.as_ptr());
    // SAFETY: the slices' bytes are there, and none is lent twice, for `queue` is lent alone.
    unsafe {
        match event {
            Event::Start { gear, n } => selkaum_queue_start(gear, n, queue, queue_len),
            Event::Join { user } => selkaum_queue_join(policy, policy_len, queue, queue_len, user),
            Event::Leave { user } => {
                selkaum_queue_leave(policy, policy_len, queue, queue_len, user)
            }
            Event::Tick => selkaum_queue_tick(policy, policy_len, queue, queue_len),
        }
    }
}

/// One event on the sheet of a picture: the code.
pub fn happen(queue: &mut Queue, picture: &[u8; PICTURE], event: Event) -> u8 {
    happen_into(queue, picture, event)
}
