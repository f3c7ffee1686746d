//! A whole list through `selkaum_run`: its codes, its cited rules and the picture after it are
//! those of the judges of this package, record by record, whatever the records and the ends; and
//! the edges of its three buffers.

use beside::generate::{self, Profile, Rng};
use beside::list::{hand_in, part, Run};
use beside::sheet::{NO_RULE, PICTURE};
use beside::{board, compare, fast};

const STREAMS_PER_PROFILE: u64 = 10;
const RECORDS_PER_STREAM: usize = 1000;

/// What buffers are filled with, to see which bytes are written.
const PAINT: u8 = 0xa5;

/// The run of all four, or the end of the test with what shows a difference.
fn agreed(bytes: &[u8], ends: &[usize]) -> Run {
    let run = compare::runs(bytes, ends)
        .unwrap_or_else(|difference| panic!("a difference\n{difference}"));
    assert_eq!((run.codes.len(), run.cited.len()), (ends.len(), ends.len()));
    run
}

/// A stream of some profile.
fn stream(rng: &mut Rng, count: usize) -> Vec<Vec<u8>> {
    let profile = rng.pick(&Profile::ALL);
    generate::stream(rng, profile, count, fast::judge)
}

// ---- Lists of every kind ----------------------------------------------------------------

/// Streams from the founding, handed in as lists. No record of theirs is torn; all other codes
/// come, and rules are cited.
#[test]
fn they_agree_on_streams() {
    let mut came = [0; 13];
    let mut cited = 0;
    for seed in 0..STREAMS_PER_PROFILE {
        for profile in Profile::ALL {
            let mut rng = Rng::new(1000 + seed * 4 + profile as u64);
            let records = generate::stream(&mut rng, profile, RECORDS_PER_STREAM, fast::judge);
            let (bytes, ends) = hand_in(&records);
            let run = agreed(&bytes, &ends);
            assert_ne!(run.picture, board::founding());
            run.codes.iter().for_each(|&code| came[code as usize] += 1);
            cited += run.cited.iter().filter(|&&rule| rule != NO_RULE).count();
        }
    }
    println!("codes {came:?}, {cited} rules cited");
    assert_eq!(came[1], 0);
    assert!((0..13).all(|code| code == 1 || came[code] >= 30));
    assert!(cited >= 1000);
}

/// Records of any bytes between those of streams: empty ones, torn ones, and ones to which bytes
/// are added or from which some are cut. One that is torn ends nothing: the next is judged.
#[test]
fn they_agree_on_any_byte_strings() {
    let mut rng = Rng::new(43);
    let (mut torn, mut done_behind) = (0, 0);
    for _ in 0..400 {
        let length = rng.below(60);
        let mut records = stream(&mut rng, length);
        for _ in 0..rng.below(20) {
            let at = rng.below(records.len() + 1);
            records.insert(at, Vec::new());
            match rng.below(4) {
                0 => {}
                1 => records[at].resize_with(rng.below(300), || rng.byte()),
                2 => records[at] = generate::torn_tail(&mut rng),
                _ => {
                    records[at] = stream(&mut rng, 1).concat();
                    let other_length = rng.below(12);
                    records[at].resize(other_length, 0);
                }
            }
        }
        let (bytes, ends) = hand_in(&records);
        let run = agreed(&bytes, &ends);
        if let Some(first) = run.codes.iter().position(|&code| code == 1) {
            torn += 1;
            done_behind += run.codes[first..].contains(&0) as usize;
        }
    }
    println!("{torn} lists with a torn record, {done_behind} of them with one done behind it");
    assert!(torn >= 200 && done_behind >= 100);
}

/// Ends that fall, repeat, lie inside records or past the end of the bytes, up to the largest
/// number. Where two of them bound no part of the bytes, the record is empty and so torn, and
/// the next one begins at the end that was given.
#[test]
fn they_agree_on_any_ends() {
    let mut rng = Rng::new(44);
    let (mut falling, mut past, mut done) = (0, 0, 0);
    for _ in 0..400 {
        let length = 1 + rng.below(60);
        let (bytes, mut ends) = hand_in(&stream(&mut rng, length));
        for _ in 0..1 + rng.below(6) {
            let at = rng.below(ends.len());
            let strange = match rng.below(5) {
                0 => rng.below(bytes.len() + 1),
                1 => bytes.len() + rng.below(3),
                2 => rng.pick(&[usize::MAX, usize::MAX - 1, 1 << 63, 1 << 32]),
                3 => ends[rng.below(ends.len())],
                _ => 0,
            };
            match rng.below(3) {
                0 => ends[at] = strange,
                _ => ends.insert(at, strange),
            }
        }
        let run = agreed(&bytes, &ends);
        let starts = [0].into_iter().chain(ends.iter().copied());
        for ((start, &end), &code) in starts.zip(&ends).zip(&run.codes) {
            falling += (end < start) as usize;
            past += (end > bytes.len()) as usize;
            done += (code == 0) as usize;
            assert!(code == 1 || !part(&bytes, start, end).is_empty());
        }
    }
    println!("{falling} falling ends, {past} past the end, {done} records done");
    assert!(falling >= 200 && past >= 200 && done >= 1000);
}

/// The empty list leaves the founding, whatever the bytes; so does one of empty records alone.
#[test]
fn lists_that_change_nothing() {
    for bytes in [&[][..], &[8, 0, 1, 0, 1, 2, 2, 0]] {
        for count in [0, 1, 2, 50] {
            let run = agreed(bytes, &vec![0; count]);
            assert_eq!(run.picture, board::founding());
            assert_eq!(run.codes, vec![1; count]);
            assert_eq!(run.cited, vec![NO_RULE; count]);
        }
    }
}

// ---- The three buffers ------------------------------------------------------------------

/// How many painted bytes stand before a buffer that is lent, and how many behind it.
const AROUND: usize = 16;

/// The result of a run into three buffers of these lengths, and these with what stands around
/// them.
fn run_painted(bytes: &[u8], ends: &[usize], lengths: [usize; 3]) -> (usize, [Vec<u8>; 3]) {
    let mut buffers = lengths.map(|length| painted(&[], length));
    let [codes, cited, policy] = &mut buffers;
    let written = board::run_into(
        bytes,
        ends,
        &mut codes[AROUND..][..lengths[0]],
        &mut cited[AROUND..][..lengths[1]],
        &mut policy[AROUND..][..lengths[2]],
    );
    (written, buffers)
}

/// A buffer of this length that starts so, with what stands around it.
fn painted(start: &[u8], length: usize) -> Vec<u8> {
    let mut buffer = vec![PAINT; AROUND + length + AROUND];
    buffer[AROUND..][..start.len()].copy_from_slice(start);
    buffer
}

/// If each buffer has room, the answers and the picture stand at their starts, and every byte
/// behind them stays. If one is too short, even by a byte, the result is 0 and every byte stays.
#[test]
fn buffers_of_every_length() {
    let (mut ran, mut refused) = (0, 0);
    for count in [0, 1, 2, 16, 300] {
        let (bytes, ends) = hand_in(&stream(&mut Rng::new(45), count));
        let run = agreed(&bytes, &ends);
        let lengths = [0, 1, count.saturating_sub(1), count, count + 1, count + 999];
        for codes in lengths {
            for cited in lengths {
                for policy in [0, 1, PICTURE - 1, PICTURE, PICTURE + 1, 2 * PICTURE] {
                    let fits = codes >= count && cited >= count && policy >= PICTURE;
                    let (result, starts) = if fits {
                        (PICTURE, [&run.codes[..], &run.cited, &run.picture])
                    } else {
                        (0, [&[][..]; 3])
                    };
                    let lent = [codes, cited, policy];
                    let (written, buffers) = run_painted(&bytes, &ends, lent);
                    assert_eq!(written, result, "{count} records, buffers of {lent:?}");
                    for ((start, length), buffer) in starts.iter().zip(lent).zip(&buffers) {
                        assert!(*buffer == painted(start, length), "buffers of {lent:?}");
                    }
                    ran += fits as usize;
                    refused += !fits as usize;
                }
            }
        }
    }
    println!("{ran} runs, {refused} refusals");
    assert!(ran >= 100 && refused >= 400);
}
