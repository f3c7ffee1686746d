//! The generator's streams: whole reports, and the judges alone.

use crate::timing::{self, call, Row, Three, Times, TORN};
use beside::board::{self, ANSWER};
use beside::generate::{self, Profile, Rng};
use beside::report::{lines_into, Next, Reader};
use beside::sheet::{Sheet, PICTURE};
use beside::{fast, sets};
use std::hint::black_box;

const STREAMS: usize = 10;
const RECORDS: usize = 1000;

/// For each profile: a report, a call for each record, and a call with a torn record.
pub fn measure() -> Vec<Row> {
    let row = |profile| {
        let streams = streams(profile);
        Row {
            name: format!("{profile:?}"),
            times: vec![reports(&streams), calls(&streams), torn_calls(&streams)],
        }
    };
    Profile::ALL.map(row).into()
}

pub fn print(rows: &[Row]) {
    println!("## Reports\n");
    println!("One call for {RECORDS} records, from the bytes to the text.\n");
    println!(
        "| Streams | Board, a record | Sets | Ratio | Fast | Ratio | \
         Board, records/s | Sets | Fast | \
         Worst stack: board | Sets | Ratio | Fast | Ratio |"
    );
    println!("|---|{}", "--:|".repeat(13));
    for row in rows {
        let (best, worst) = (row.times[0].best(), row.times[0].worst());
        println!(
            "| {} | {:.0} | {} | {:.0} | {:.0} | {:.0} | {:.0} | {} |",
            row.name,
            best.board,
            best.beside_board(),
            1e9 / best.board,
            1e9 / best.sets,
            1e9 / best.fast,
            worst.board,
            worst.beside_board()
        );
    }
    println!("\n## The judge alone\n");
    println!(
        "One call for each record, on what the call before returned. The board reads and writes \
         a picture in each call, the judges beside it change a sheet where it lies.\n"
    );
    println!(
        "| Streams | Board, a call | Board, torn record | Difference | \
         Sets | Ratio | Fast | Ratio |"
    );
    println!("|---|{}", "--:|".repeat(7));
    for row in rows {
        let (call, torn) = (row.times[1].best(), row.times[2].best());
        let net = Three {
            board: call.board - torn.board,
            ..call
        };
        println!(
            "| {} | {:.0} | {:.0} | {:.0} | {} |",
            row.name,
            call.board,
            torn.board,
            net.board,
            net.beside_board()
        );
    }
    println!();
}

/// The streams of a profile, each as one run of bytes.
pub fn streams(profile: Profile) -> Vec<Vec<u8>> {
    let stream = |seed| {
        let mut rng = Rng::new(1000 + seed);
        generate::stream(&mut rng, profile, RECORDS, fast::judge).concat()
    };
    (0..STREAMS as u64).map(stream).collect()
}

/// Per record of a report.
fn reports(streams: &[Vec<u8>]) -> Times {
    let longest = streams.iter().map(Vec::len).max().expect("streams");
    let mut board_text = vec![0; board::room(longest)];
    let mut sets_text = board_text.clone();
    let mut fast_text = board_text.clone();
    mean(streams, |input| {
        timing::measure(
            RECORDS,
            || {
                black_box(board::report_into(black_box(input), &mut board_text));
            },
            || {
                let judge = sets::judge_in_place;
                black_box(lines_into(black_box(input), &mut sets_text, judge));
            },
            || {
                let judge = fast::judge_in_place;
                black_box(lines_into(black_box(input), &mut fast_text, judge));
            },
        )
    })
}

/// Per record that is judged by a call of its own.
fn calls(streams: &[Vec<u8>]) -> Times {
    mean(streams, |input| {
        timing::measure(
            RECORDS,
            || by_board(black_box(input)),
            || {
                black_box(by_judge(black_box(input), sets::judge_in_place));
            },
            || {
                black_box(by_judge(black_box(input), fast::judge_in_place));
            },
        )
    })
}

/// Per call with a torn record, on the policies that the streams end with.
fn torn_calls(streams: &[Vec<u8>]) -> Times {
    mean(streams, |input| {
        call(&by_judge(input, fast::judge_in_place), &TORN, 1)
    })
}

fn mean(streams: &[Vec<u8>], measure: impl FnMut(&Vec<u8>) -> Times) -> Times {
    let times: Vec<Times> = streams.iter().map(measure).collect();
    Times::mean(&times)
}

/// Two buffers take turns: the answer to one record is the policy for the next.
fn by_board(input: &[u8]) {
    let (mut first, mut second) = ([0; ANSWER], [0; ANSWER]);
    first[..PICTURE].copy_from_slice(&board::founding());
    let (mut before, mut after) = (&mut first, &mut second);
    let mut reader = Reader::new(input);
    while let Next::Record(record) = reader.next_record() {
        black_box(board::judge_into(&before[..PICTURE], record, after));
        std::mem::swap(&mut before, &mut after);
    }
}

/// The sheet after the stream.
fn by_judge(input: &[u8], judge: impl Fn(&mut Sheet, &[u8]) -> (u8, u8)) -> Sheet {
    let mut sheet = Sheet::founding();
    let mut reader = Reader::new(input);
    while let Next::Record(record) = reader.next_record() {
        black_box(judge(&mut sheet, record));
    }
    sheet
}
