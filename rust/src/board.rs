//! The proved board, as `include/selkaum.h` declares it. A slice tells the library where its
//! bytes are and how many, which is all that it asks of a caller; so the functions here are safe.

mod questions;
mod queues;

pub use crate::question::SET;
pub use questions::{ask, ask_into, initial_into, lines};
pub use queues::{happen, happen_into, NO_EVENT};

use crate::list::Run;
use crate::sheet::{Sheet, NO_RULE, PICTURE};

/// Length of an answer: the picture of the sheet after, the code and the cited rule.
pub const ANSWER: usize = PICTURE + 2;

/// Length of an answer to a card: the picture of the sheet after, and the code.
pub const CARD_ANSWER: usize = PICTURE + 1;

extern "C" {
    fn selkaum_initial(policy: *mut u8, policy_len: usize) -> usize;

    fn selkaum_judge(
        policy: *const u8,
        policy_len: usize,
        record: *const u8,
        record_len: usize,
        answer: *mut u8,
        answer_len: usize,
    ) -> usize;

    fn selkaum_report(input: *const u8, input_len: usize, out: *mut u8, out_len: usize) -> usize;

    fn selkaum_lines(input: *const u8, input_len: usize) -> usize;

    fn selkaum_run(
        bytes: *const u8,
        bytes_len: usize,
        ends: *const usize,
        ends_len: usize,
        codes: *mut u8,
        codes_len: usize,
        cited: *mut u8,
        cited_len: usize,
        policy: *mut u8,
        policy_len: usize,
    ) -> usize;

    fn selkaum_gain(
        policy: *const u8,
        policy_len: usize,
        record: *const u8,
        record_len: usize,
        gain: *mut u8,
        gain_len: usize,
    ) -> usize;

    fn selkaum_sort(
        policy: *const u8,
        policy_len: usize,
        x: u8,
        out: *mut u8,
        out_len: usize,
    ) -> usize;

    fn selkaum_above(
        policy: *const u8,
        policy_len: usize,
        x: u8,
        out: *mut u8,
        out_len: usize,
    ) -> usize;

    fn selkaum_below(
        policy: *const u8,
        policy_len: usize,
        g: u8,
        out: *mut u8,
        out_len: usize,
    ) -> usize;

    fn selkaum_owned(
        policy: *const u8,
        policy_len: usize,
        u: u8,
        out: *mut u8,
        out_len: usize,
    ) -> usize;

    fn selkaum_managed(
        policy: *const u8,
        policy_len: usize,
        u: u8,
        out: *mut u8,
        out_len: usize,
    ) -> usize;

    fn selkaum_administered(
        policy: *const u8,
        policy_len: usize,
        u: u8,
        a: u8,
        out: *mut u8,
        out_len: usize,
    ) -> usize;

    fn selkaum_permitted(
        policy: *const u8,
        policy_len: usize,
        u: u8,
        k: u8,
        out: *mut u8,
        out_len: usize,
    ) -> usize;

    fn selkaum_permitting(
        policy: *const u8,
        policy_len: usize,
        u: u8,
        k: u8,
        x: u8,
        out: *mut u8,
        out_len: usize,
    ) -> usize;

    fn selkaum_write_card(
        policy: *const u8,
        policy_len: usize,
        card: *mut u8,
        card_len: usize,
        code: *mut u8,
        code_len: usize,
    ) -> usize;

    fn selkaum_read_card(
        policy: *const u8,
        policy_len: usize,
        card: *const u8,
        card_len: usize,
        answer: *mut u8,
        answer_len: usize,
    ) -> usize;
}

/// An answer whose sheet is a picture, as the board returns it.
#[derive(Clone, Copy, Debug, PartialEq, Eq)]
pub struct Answer {
    pub picture: [u8; PICTURE],
    pub code: u8,
    pub cited: u8,
}

impl From<crate::sheet::Answer> for Answer {
    fn from(answer: crate::sheet::Answer) -> Answer {
        Answer {
            picture: answer.sheet.picture(),
            code: answer.code,
            cited: answer.cited,
        }
    }
}

/// `selkaum_judge` as it is: writes the answer over the start of `answer`, if the lengths fit,
/// and returns the number of bytes written.
pub fn judge_into(policy: &[u8], record: &[u8], answer: &mut [u8]) -> usize {
    // SAFETY: the slices' bytes are there, and none is lent twice, for `answer` is lent alone.
    unsafe {
        selkaum_judge(
            policy.as_ptr(),
            policy.len(),
            record.as_ptr(),
            record.len(),
            answer.as_mut_ptr(),
            answer.len(),
        )
    }
}

/// The board's answer to one record on the sheet of a picture.
pub fn judge(picture: &[u8; PICTURE], record: &[u8]) -> Answer {
    let mut bytes = [0; ANSWER];
    let written = judge_into(picture, record, &mut bytes);
    assert_eq!(written, ANSWER, "the board writes a whole answer");
    let mut answer = Answer {
        picture: [0; PICTURE],
        code: bytes[PICTURE],
        cited: bytes[PICTURE + 1],
    };
    answer.picture.copy_from_slice(&bytes[..PICTURE]);
    answer
}

/// `selkaum_report` as it is: writes the text over the start of `out`, as far as there is room,
/// and returns the number of bytes written.
pub fn report_into(input: &[u8], out: &mut [u8]) -> usize {
    // SAFETY: the slices' bytes are there, and `out` is lent alone.
    unsafe { selkaum_report(input.as_ptr(), input.len(), out.as_mut_ptr(), out.len()) }
}

/// The board's lines for all records of the input, the first on the founding.
pub fn report(input: &[u8]) -> Vec<u8> {
    let mut text = vec![0; room(input.len())];
    let written = report_into(input, &mut text);
    text.truncate(written);
    text
}

/// As many bytes as the lines of an input of this length can have. A record has four bytes at
/// least; a torn place needs a line more.
pub fn room(input: usize) -> usize {
    let lines = input / 4 + 1;
    let longest = format!("{lines} 12 {NO_RULE}\n");
    lines * longest.len()
}

/// `selkaum_run` as it is: writes the codes, the cited rules and the picture of the sheet after
/// over the start of the three buffers, if all of them fit, and returns the length of the picture,
/// or else 0.
pub fn run_into(
    bytes: &[u8],
    ends: &[usize],
    codes: &mut [u8],
    cited: &mut [u8],
    policy: &mut [u8],
) -> usize {
    // SAFETY: what the slices hold is there, and none of the three buffers is lent twice.
    unsafe {
        selkaum_run(
            bytes.as_ptr(),
            bytes.len(),
            ends.as_ptr(),
            ends.len(),
            codes.as_mut_ptr(),
            codes.len(),
            cited.as_mut_ptr(),
            cited.len(),
            policy.as_mut_ptr(),
            policy.len(),
        )
    }
}

/// The board's run of a list from the founding.
pub fn run(bytes: &[u8], ends: &[usize]) -> Run {
    let mut run = Run {
        codes: vec![0; ends.len()],
        cited: vec![0; ends.len()],
        picture: [0; PICTURE],
    };
    let (codes, cited, picture) = (&mut run.codes, &mut run.cited, &mut run.picture);
    let written = run_into(bytes, ends, codes, cited, picture);
    assert_eq!(written, PICTURE, "the board runs a list that fits");
    run
}

/// `selkaum_gain` as it is: writes the permit that a record refused for own gain would give over
/// the start of `gain`, and returns the number of bytes written.
pub fn gain_into(policy: &[u8], record: &[u8], gain: &mut [u8]) -> usize {
    // SAFETY: the slices' bytes are there, and none is lent twice, for `gain` is lent alone.
    unsafe {
        selkaum_gain(
            policy.as_ptr(),
            policy.len(),
            record.as_ptr(),
            record.len(),
            gain.as_mut_ptr(),
            gain.len(),
        )
    }
}

/// The gear and the operation of the first permit that a record would give its sender, if the
/// board refuses it for own gain on the sheet of a picture and it would give one.
pub fn gain(picture: &[u8; PICTURE], record: &[u8]) -> Option<(u8, u8)> {
    let mut gain = [0; 2];
    match gain_into(picture, record, &mut gain) {
        2 => Some((gain[0], gain[1])),
        written => {
            assert_eq!(
                (written, gain),
                (0, [0; 2]),
                "the board writes a whole gain"
            );
            None
        }
    }
}

/// `selkaum_above` as it is: writes the set of all that an object is under over the start of
/// `out`, if the lengths fit, and returns the number of bytes written.
pub fn above_into(policy: &[u8], x: u8, out: &mut [u8]) -> usize {
    // SAFETY: the slices' bytes are there, and none is lent twice, for `out` is lent alone.
    unsafe {
        selkaum_above(
            policy.as_ptr(),
            policy.len(),
            x,
            out.as_mut_ptr(),
            out.len(),
        )
    }
}

/// The set of all that an object is under on the sheet of a picture: bit g is object g.
pub fn above(picture: &[u8; PICTURE], x: u8) -> u64 {
    let mut set = [0; SET];
    let written = above_into(picture, x, &mut set);
    assert_eq!(written, SET, "the board writes a whole set");
    u64::from_le_bytes(set)
}

/// `selkaum_write_card` as it is: writes the file over the start of `card` and the code over the
/// first byte of `code`, if the lengths fit, and returns the file's length, or 0 when refused.
pub fn write_card_into(policy: &[u8], card: &mut [u8], code: &mut [u8]) -> usize {
    // SAFETY: the slices' bytes are there, and neither of the two buffers is lent twice.
    unsafe {
        selkaum_write_card(
            policy.as_ptr(),
            policy.len(),
            card.as_mut_ptr(),
            card.len(),
            code.as_mut_ptr(),
            code.len(),
        )
    }
}

/// The board's code for the sheet of a picture, and the length of the file that it writes into
/// the lent bytes.
pub fn write_card(picture: &[u8; PICTURE], lent: &mut [u8]) -> (u8, usize) {
    // No code of the board, so that one that isn't written is seen.
    let mut code = [255];
    let length = write_card_into(picture, lent, &mut code);
    (code[0], length)
}

/// `selkaum_read_card` as it is: writes the picture of the sheet after and the code over the
/// start of `answer`, if the lengths fit, and returns the number of bytes written.
pub fn read_card_into(policy: &[u8], card: &[u8], answer: &mut [u8]) -> usize {
    // SAFETY: the slices' bytes are there, and none is lent twice, for `answer` is lent alone.
    unsafe {
        selkaum_read_card(
            policy.as_ptr(),
            policy.len(),
            card.as_ptr(),
            card.len(),
            answer.as_mut_ptr(),
            answer.len(),
        )
    }
}

/// The board's code for a card, and the picture of the sheet after; this is the kept one if the
/// card is damaged.
pub fn read_card(kept: &[u8; PICTURE], card: &[u8]) -> (u8, [u8; PICTURE]) {
    let mut bytes = [0; CARD_ANSWER];
    let written = read_card_into(kept, card, &mut bytes);
    assert_eq!(written, CARD_ANSWER, "the board writes a whole answer");
    let mut picture = [0; PICTURE];
    picture.copy_from_slice(&bytes[..PICTURE]);
    (bytes[PICTURE], picture)
}

/// The picture of the founding.
pub fn founding() -> [u8; PICTURE] {
    Sheet::founding().picture()
}
