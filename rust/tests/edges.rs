//! The sample of document 01, the edges of the runner's report, those of `selkaum_report` and
//! `selkaum_judge`, and the picture of a sheet.

use beside::board::{self, ANSWER};
use beside::generate::{self, Profile, Rng};
use beside::report::{lines, lines_into, report, MOST_BYTES};
use beside::sheet::{Answer, Sheet, PICTURE};
use beside::{fast, plain, program, sets};

type Judge = fn(&Sheet, &[u8]) -> Answer;
const JUDGES: [Judge; 3] = [plain::judge, sets::judge, fast::judge];

/// The place of the rules in a picture, and of the code and the cited rule in an answer.
const RULES_AT: usize = 704;
const CODE: usize = 960;
const CITED: usize = 961;

/// What buffers are filled with, to see which bytes are written.
const PAINT: u8 = 0xa5;

/// All four print this text for the input.
fn assert_prints(input: &[u8], text: &str) {
    assert_eq!(String::from_utf8_lossy(&board::report(input)), text);
    for judge in JUDGES {
        assert_eq!(lines(input, judge), text);
    }
}

// ---- The sample -------------------------------------------------------------------------

fn record(kind: u8, fields: &[u8]) -> Vec<u8> {
    let mut record = vec![4 + fields.len() as u8, 0, kind, 0];
    record.extend(fields);
    record
}

/// The sixteen requests of "Sample" in document 01.
fn sample() -> Vec<Vec<u8>> {
    vec![
        record(1, &[1, 2, 2, 0]),
        record(1, &[1, 3, 2, 0]),
        record(1, &[1, 4, 1, 0]),
        record(1, &[1, 5, 1, 0]),
        record(1, &[1, 6, 3, 5]),
        record(1, &[1, 7, 2, 4]),
        record(4, &[1, 1, 2, 2, 0, 0]),
        record(4, &[2, 2, 3, 3, 4, 5]),
        record(6, &[3, 0, 4, 5, 6]),
        record(8, &[7, 6, 2]),
        record(8, &[3, 6, 2]),
        record(2, &[2, 3, 4]),
        record(8, &[3, 6, 2]),
        record(4, &[1, 3, 2, 1, 0, 0]),
        record(3, &[1, 1, 0]),
        record(7, &[1, 0]),
    ]
}

const SAMPLE_LINES: &str = "0 0 255 / 1 0 255 / 2 0 255 / 3 0 255 / 4 0 255 / 5 0 255 / 6 0 255 / \
    7 0 255 / 8 0 255 / 9 0 0 / 10 9 255 / 11 0 255 / 12 0 0 / 13 10 255 / 14 12 255 / 15 0 255";

/// The first lines of the sample's text.
fn sample_text(count: usize) -> String {
    let lines = SAMPLE_LINES.split(" / ").take(count);
    lines.map(|line| format!("{line}\n")).collect()
}

#[test]
fn sample_of_document_01() {
    assert_prints(&sample().concat(), &sample_text(16));
}

/// "Then: 1 appoints 7 manager of 5 (place 3): 0. 2 puts 3 into 5: 11. 1 does it: 0. 1, the
/// only owner, dismissing warrant 0: 12. MAKE at place 63 fits, at 64: 5. APPOINT at place 31
/// fits, at 32: 5."
#[test]
fn lines_after_the_sample() {
    let then = [
        record(4, &[1, 3, 2, 7, 5, 0]),
        record(2, &[2, 3, 5]),
        record(2, &[1, 3, 5]),
        record(5, &[1, 0]),
        record(1, &[1, 63, 1, 0]),
        record(1, &[1, 64, 1, 0]),
        record(4, &[1, 31, 2, 2, 0, 0]),
        record(4, &[1, 32, 2, 2, 0, 0]),
    ];
    let text = "16 0 255\n17 11 255\n18 0 255\n19 12 255\n20 0 255\n21 5 255\n22 0 255\n23 5 255\n";
    let input = [sample().concat(), then.concat()].concat();
    assert_prints(&input, &(sample_text(16) + text));
}

/// "In hexadecimal, 08 00 01 00 01 02 02 00: member 1 makes member 2 in group 0."
#[test]
fn the_records_bytes() {
    assert_eq!(record(1, &[1, 2, 2, 0]), [8, 0, 1, 0, 1, 2, 2, 0]);
}

// ---- The report's edges -----------------------------------------------------------------

#[test]
fn empty_input_prints_nothing() {
    assert_prints(&[], "");
    let mut out = [PAINT; 16];
    assert_eq!(board::report_into(&[], &mut out), 0);
    assert_eq!(out, [PAINT; 16]);
}

/// "Fewer than 4 bytes left over, a length field below 4, or one running past the end, is torn;
/// no later record is read": before, between and behind the records of the sample.
#[test]
fn torn_in_three_ways() {
    let sample = sample();
    for count in [0, 1, 8, 15, 16] {
        let before = sample[..count].concat();
        let behind = sample[count..].concat();
        let text = sample_text(count) + &format!("{count} 1 255\n");
        for left_over in [&[0][..], &[8, 0], &[4, 0, 1], &[255, 255, 255]] {
            assert_prints(&[&before, left_over].concat(), &text);
        }
        for below_four in 0..4 {
            let torn = [below_four, 0, 1, 0];
            assert_prints(&[&before, &torn[..], &behind].concat(), &text);
        }
        for past_the_end in [1, 2, 256, 60_000] {
            let length = (4 + behind.len() + past_the_end) as u16;
            let [low, high] = length.to_le_bytes();
            let torn = [low, high, 1, 0];
            assert_prints(&[&before, &torn[..], &behind].concat(), &text);
        }
    }
}

/// A record that ends where the input ends is not torn, and all lengths from 4 on are read.
#[test]
fn records_that_fill_the_input() {
    assert_prints(&[4, 0, 1, 0], "0 3 255\n");
    assert_prints(&[4, 0, 1, 1], "0 2 255\n");
    assert_prints(&[4, 0, 0, 0], "0 2 255\n");
    assert_prints(&[4, 0, 9, 0], "0 2 255\n");
    assert_prints(&[5, 0, 0, 0, 7, 6, 0, 5], "0 2 255\n1 1 255\n");
    assert_prints(&[5, 0, 8, 0, 1, 4, 0, 8, 0], "0 3 255\n1 3 255\n");
    let longest = [vec![255, 255, 1, 0], vec![0; 65_531]].concat();
    assert_prints(&longest, "0 3 255\n");
    assert_prints(&[longest, vec![0]].concat(), "0 3 255\n1 1 255\n");
}

/// "At most 65,536 bytes" is the program's limit; `selkaum_report` has none.
#[test]
fn the_limit_is_the_programs() {
    let full = vec![0; MOST_BYTES];
    let over = vec![0; MOST_BYTES + 1];
    for judge in JUDGES {
        assert_eq!(report(&full, judge), "0 1 255\n");
        assert_eq!(report(&over, judge), "too long\n");
    }
    assert_prints(&full, "0 1 255\n");
    assert_prints(&over, "0 1 255\n");
}

/// Indices grow past five digits in an input of 400,000 bytes.
#[test]
fn a_hundred_thousand_lines() {
    let input = [record(1, &[1, 2, 2, 0]), [4, 0, 7, 0].repeat(100_000)].concat();
    let mut text = "0 0 255\n".to_string();
    for index in 1..=100_000 {
        text += &format!("{index} 3 255\n");
    }
    assert_prints(&input, &text);
}

/// A buffer too small gets the start of the text, to the byte; one too large stays as it is
/// behind the text. The lines of the judges for speed in a buffer do likewise.
#[test]
fn buffers_of_every_size() {
    let input = sample().concat();
    let text = sample_text(16);
    let sets_into = |input: &[u8], out: &mut [u8]| lines_into(input, out, sets::judge_in_place);
    let fast_into = |input: &[u8], out: &mut [u8]| lines_into(input, out, fast::judge_in_place);
    for room in 0..text.len() + 9 {
        for report_into in [board::report_into, sets_into, fast_into] {
            let mut out = vec![PAINT; room + 4];
            let written = report_into(&input, &mut out[..room]);
            assert_eq!(written, room.min(text.len()));
            assert_eq!(&out[..written], &text.as_bytes()[..written]);
            assert!(out[written..].iter().all(|&byte| byte == PAINT));
        }
    }
}

/// The buffer of `board::report` has room for the longest lines, if every four bytes are a
/// record and what is left over is torn.
#[test]
fn room_for_every_line() {
    for input in (0_usize..100).chain([39_999, 40_000, 40_003, 40_004, 400_003]) {
        let mut text = String::new();
        for index in 0..input.div_ceil(4) {
            text += &format!("{index} 12 255\n");
        }
        assert!(board::room(input) >= text.len(), "{input} bytes");
    }
}

// ---- The judge for C at its edges -------------------------------------------------------

/// A policy or an answer of the wrong length: 0, and nothing is written.
#[test]
fn wrong_lengths_write_nothing() {
    let record = record(1, &[1, 2, 2, 0]);
    let policy = [board::founding(), [0; PICTURE]].concat();
    for (policy_len, answer_len) in [
        (0, 1000),
        (1, 1000),
        (959, 1000),
        (961, 1000),
        (1920, 1000),
        (960, 0),
        (960, 1),
        (960, 960),
        (960, 961),
        (959, 961),
    ] {
        let mut answer = vec![PAINT; 1000];
        let written = board::judge_into(&policy[..policy_len], &record, &mut answer[..answer_len]);
        assert_eq!(written, 0, "policy {policy_len}, answer {answer_len}");
        assert_eq!(answer, [PAINT; 1000]);
    }
}

/// An answer of 962 bytes or more: 962 are written, and those behind them stay.
#[test]
fn a_long_answer_stays_behind_the_first_962() {
    let record = record(1, &[1, 2, 2, 0]);
    let after = plain::judge(&Sheet::founding(), &record).sheet.picture();
    for answer_len in [962, 963, 1000, 4096] {
        let mut answer = vec![PAINT; answer_len];
        let written = board::judge_into(&board::founding(), &record, &mut answer);
        assert_eq!(written, ANSWER);
        assert_eq!(answer[..PICTURE], after);
        assert_eq!((answer[CODE], answer[CITED]), (0, 255));
        assert!(answer[ANSWER..].iter().all(|&byte| byte == PAINT));
    }
}

/// A record may have any length; the length field has only two bytes, so one of 65,536 bytes
/// and more is torn whatever it says.
#[test]
fn records_of_every_length() {
    let founding = board::founding();
    let first = record(1, &[1, 2, 2, 0]);
    for length in (0..20).chain([255, 256, 264, 65_535, 65_536, 65_544, 200_000]) {
        let mut bytes = first.clone();
        bytes.resize(length, 0);
        let expected = if length == 8 { 0 } else { 1 };
        assert_eq!(board::judge(&founding, &bytes).code, expected);
        if length >= 4 {
            bytes[..2].copy_from_slice(&(length as u16).to_le_bytes());
            let expected = match length {
                8 => 0,
                4..=65_535 => 3,
                _ => 1,
            };
            assert_eq!(board::judge(&founding, &bytes).code, expected);
        }
    }
}

/// A mark other than 1 is an empty place, and comes back as 0; what else stands there stays, on
/// a refusal and on a request that is done.
#[test]
fn marks_come_back_as_0_or_1() {
    let done = record(1, &[1, 2, 2, 0]);
    let refused = record(7, &[1, 9]);
    for mark in 0..=255 {
        let mut before = board::founding();
        before[RULES_AT + 4 * 9..][..4].copy_from_slice(&[mark, 7, 200, 255]);
        let stored = [(mark == 1) as u8, 7, 200, 255];
        for (record, code) in [(&done, 0), (&refused, if mark == 1 { 9 } else { 6 })] {
            let answer = board::judge(&before, record);
            assert_eq!(answer.code, code, "mark {mark}");
            assert_eq!(answer.picture[RULES_AT + 4 * 9..][..4], stored);
        }
    }
}

/// A refusal hands every byte back as it stood, the marks excepted, whatever the picture.
#[test]
fn refusals_hand_every_byte_back() {
    let mut rng = Rng::new(91);
    for _ in 0..5000 {
        let mut before = [0; PICTURE];
        before.fill_with(|| rng.byte());
        let mut after = before;
        for mark in after[RULES_AT..].iter_mut().step_by(4) {
            *mark = (*mark == 1) as u8;
        }
        let answer = board::judge(&before, &[rng.byte(), rng.byte(), rng.byte()]);
        assert_eq!((answer.code, answer.cited), (1, 255));
        assert_eq!(answer.picture, after);
    }
}

/// Buffers may start at any address.
#[test]
fn buffers_at_odd_addresses() {
    let input = sample().concat();
    for shift in 0..16 {
        let shifted = [vec![0; shift], input.clone()].concat();
        let mut text = vec![PAINT; 400];
        let written = board::report_into(&shifted[shift..], &mut text[shift..]);
        assert_eq!(&text[shift..shift + written], sample_text(16).as_bytes());

        let policy = [vec![0; shift], board::founding().to_vec()].concat();
        let mut answer = vec![PAINT; ANSWER + 16];
        let record = &shifted[shift..shift + 8];
        let answered = board::judge_into(&policy[shift..], record, &mut answer[15 - shift..]);
        assert_eq!(answered, ANSWER);
        let after = plain::judge(&Sheet::founding(), record).sheet.picture();
        assert_eq!(answer[15 - shift..][..PICTURE], after);
    }
}

// ---- The picture of a sheet -------------------------------------------------------------

/// Sheets of any value come back from their pictures, and any 960 bytes from their sheets, the
/// marks excepted.
#[test]
fn picture_goes_both_ways() {
    let mut rng = Rng::new(6);
    for _ in 0..1000 {
        let sheet = generate::sheet(&mut rng);
        assert_eq!(Sheet::from_picture(&sheet.picture()), sheet);

        let mut bytes = [0; PICTURE];
        bytes.fill_with(|| rng.byte());
        let mut marked = bytes;
        for mark in marked[RULES_AT..].iter_mut().step_by(4) {
            *mark = (*mark == 1) as u8;
        }
        assert_eq!(Sheet::from_picture(&bytes).picture(), marked);
    }
}

/// A row of a picture has the groups that an object is stored in, eight to a byte, the lowest
/// first; whatever the objects and the groups are.
#[test]
fn rows_of_a_picture_are_by_object() {
    let mut rng = Rng::new(7);
    for _ in 0..100 {
        let sheet = generate::sheet(&mut rng);
        let picture = sheet.picture();
        for x in 0..64 {
            for g in 0..64 {
                let shown = picture[64 + 8 * x + g / 8] >> (g % 8) & 1 == 1;
                assert_eq!(shown, sheet.members[g] >> x & 1 == 1, "{x} in {g}");
            }
        }
    }
}

#[test]
fn picture_of_the_founding() {
    let mut expected = [0; PICTURE];
    expected[0] = 1;
    expected[1] = 2;
    expected[72] = 1;
    expected[576] = 1;
    expected[577] = 1;
    assert_eq!(board::founding(), expected);
    expected[RULES_AT] = 2;
    assert_eq!(Sheet::from_picture(&expected), Sheet::founding());
}

// ---- The program ------------------------------------------------------------------------

/// The program itself prints what the plain judge says, on inputs up to one byte past its limit
/// and beyond.
#[test]
#[cfg_attr(not(runner), ignore = "target/bin/runner isn't built")]
fn the_program_prints_the_same() {
    let mut rng = Rng::new(92);
    let mut inputs = vec![vec![], sample().concat(), vec![0; 200_000]];
    for profile in Profile::ALL {
        let stream = generate::stream(&mut rng, profile, 12_000, fast::judge).concat();
        assert!(stream.len() > MOST_BYTES);
        for length in [1, 1000, MOST_BYTES - 1, MOST_BYTES, MOST_BYTES + 1] {
            inputs.push(stream[..length].to_vec());
        }
    }
    let mut too_long = 0;
    for input in inputs {
        let text = report(&input, plain::judge);
        assert_eq!(
            program::run("runner", &input),
            text,
            "{} bytes",
            input.len()
        );
        too_long += (text == "too long\n") as usize;
    }
    assert_eq!(too_long, 5);
}
