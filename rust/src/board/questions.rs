//! The board's answers to questions about a policy; the picture of the founding as it writes it,
//! and the lines of a report as it counts them.

use super::*;
use crate::question::Question::{self, *};

/// The entry point of a question as it is: writes the answer over the start of `out`, if the
/// lengths fit, and returns the number of bytes written.
pub fn ask_into(policy: &[u8], question: Question, out: &mut [u8]) -> usize {
    let (policy, policy_len) = (policy.as_ptr(), policy.len());
    let (out_len, out) = (out.len(), out.as_mut_ptr());
    // SAFETY: the slices' bytes are there, and none is lent twice, for `out` is lent alone.
    unsafe {
        match question {
            Sort { x } => selkaum_sort(policy, policy_len, x, out, out_len),
            Below { g } => selkaum_below(policy, policy_len, g, out, out_len),
            Owned { u } => selkaum_owned(policy, policy_len, u, out, out_len),
            Managed { u } => selkaum_managed(policy, policy_len, u, out, out_len),
            Administered { u, a } => selkaum_administered(policy, policy_len, u, a, out, out_len),
            Permitted { u, k } => selkaum_permitted(policy, policy_len, u, k, out, out_len),
            Permitting { u, k, x } => selkaum_permitting(policy, policy_len, u, k, x, out, out_len),
        }
    }
}

/// The answer to a question on the sheet of a picture: a set, with bit n for object n, or one byte.
pub fn ask(picture: &[u8; PICTURE], question: Question) -> u64 {
    let mut answer = [0; SET];
    let length = question.length();
    let written = ask_into(picture, question, &mut answer[..length]);
    assert_eq!(written, length, "the board writes a whole answer");
    u64::from_le_bytes(answer)
}

/// `selkaum_initial` as it is: writes the picture of the founding over the start of `policy`, if
/// there is room, and returns the number of bytes written.
pub fn initial_into(policy: &mut [u8]) -> usize {
    // SAFETY: the slice's bytes are there, and lent alone.
    unsafe { selkaum_initial(policy.as_mut_ptr(), policy.len()) }
}

/// How many lines the whole report of an input has, as the board tells it.
pub fn lines(input: &[u8]) -> usize {
    // SAFETY: the slice's bytes are there.
    unsafe { selkaum_lines(input.as_ptr(), input.len()) }
}
