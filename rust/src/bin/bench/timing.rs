//! Time per call, the board and two judges taking turns.

use beside::board::{self, ANSWER};
use beside::sheet::Sheet;
use beside::{fast, sets};
use std::array::from_fn;
use std::hint::black_box;
use std::time::Instant;

/// How often each of the three has its turn at each shift of the stack in one pass.
pub const ROUNDS: usize = 5;

/// Turns are taken with the stack moved by 0, 16, 32 and 48 bytes: how the judges' tables lie in
/// the lines of the cache changes their speed, and differs from run to run.
pub const SHIFTS: usize = 4;

/// Calls in one turn on a single record: short turns, so that some are undisturbed.
const CALLS: usize = 200;

/// A record that all three refuse at once.
pub const TORN: [u8; 3] = [0; 3];

/// Nanoseconds of the board, of the judge with sets and of the fast judge.
#[derive(Clone, Copy)]
pub struct Three {
    pub board: f64,
    pub sets: f64,
    pub fast: f64,
}

impl Three {
    const NEVER: Three = Three {
        board: f64::INFINITY,
        sets: f64::INFINITY,
        fast: f64::INFINITY,
    };

    /// The times of the judges, behind each how many times as long the board takes.
    pub fn beside_board(self) -> String {
        let Three { board, sets, fast } = self;
        let (to_sets, to_fast) = (board / sets, board / fast);
        format!("{sets:.0} | {to_sets:.1} | {fast:.0} | {to_fast:.1}")
    }

    /// What is left of these times without those.
    pub fn minus(self, less: Three) -> Three {
        self.each(less, |time, less| time - less)
    }

    fn each(self, other: Three, of: fn(f64, f64) -> f64) -> Three {
        Three {
            board: of(self.board, other.board),
            sets: of(self.sets, other.sets),
            fast: of(self.fast, other.fast),
        }
    }
}

/// The shortest times at each shift of the stack.
#[derive(Clone, Copy)]
pub struct Times([Three; SHIFTS]);

impl Times {
    /// At the shift that suits each best.
    pub fn best(&self) -> Three {
        self.0
            .into_iter()
            .reduce(|a, b| a.each(b, f64::min))
            .expect("four shifts")
    }

    /// At the shift that suits each least.
    pub fn worst(&self) -> Three {
        self.0
            .into_iter()
            .reduce(|a, b| a.each(b, f64::max))
            .expect("four shifts")
    }

    fn keep_shorter(&mut self, other: Times) {
        for (mine, others) in self.0.iter_mut().zip(other.0) {
            *mine = mine.each(others, f64::min);
        }
    }

    pub fn mean(many: &[Times]) -> Times {
        let mean = |shift: usize, of: fn(Three) -> f64| {
            many.iter().map(|times| of(times.0[shift])).sum::<f64>() / many.len() as f64
        };
        Times(from_fn(|shift| Three {
            board: mean(shift, |three| three.board),
            sets: mean(shift, |three| three.sets),
            fast: mean(shift, |three| three.fast),
        }))
    }
}

/// One row of a table: its name, and what was measured for it.
pub struct Row {
    pub name: String,
    pub times: Vec<Times>,
}

impl Row {
    /// Prints the row of a table, board / fast, without the time of the first record.
    pub fn print_net(&self) {
        print!("| {} ", self.name);
        for times in &self.times[1..] {
            let net = times.best().minus(self.times[0].best());
            print!("| {:.0} / {:.0} ", net.board, net.fast);
        }
        println!("|");
    }
}

/// Of two measurements of the same rows, keeps the shorter times.
pub fn keep_shorter(rows: &mut [Row], again: Vec<Row>) {
    for (row, again) in rows.iter_mut().zip(again) {
        assert_eq!(row.name, again.name);
        for (times, again) in row.times.iter_mut().zip(again.times) {
            times.keep_shorter(again);
        }
    }
}

/// Nanoseconds of one of `count` things that each of these calls does, in their quickest turns.
pub fn measure(
    count: usize,
    mut board: impl FnMut(),
    mut sets: impl FnMut(),
    mut fast: impl FnMut(),
) -> Times {
    let mut times = Times([Three::NEVER; SHIFTS]);
    for _ in 0..ROUNDS {
        times.keep_shorter(Times(from_fn(|shift| Three {
            board: shifted(shift, &mut board) / count as f64,
            sets: shifted(shift, &mut sets) / count as f64,
            fast: shifted(shift, &mut fast) / count as f64,
        })));
    }
    times
}

fn shifted(shift: usize, call: &mut dyn FnMut()) -> f64 {
    match shift {
        0 => nanoseconds::<16>(call),
        1 => nanoseconds::<32>(call),
        2 => nanoseconds::<48>(call),
        _ => nanoseconds::<64>(call),
    }
}

/// The time of a call below so many bytes of the stack.
#[inline(never)]
fn nanoseconds<const BYTES: usize>(call: &mut dyn FnMut()) -> f64 {
    let room = [0u8; BYTES];
    black_box(&room);
    let start = Instant::now();
    call();
    let time = start.elapsed().as_nanos() as f64;
    black_box(&room);
    time
}

/// All three on one record and the same policy over and over, each call with a whole policy in
/// and a whole policy out: for the board a picture is read and one is written, for the judges
/// the sheet is copied. All have to give this code.
pub fn call(sheet: &Sheet, record: &[u8], code: u8) -> Times {
    let picture = sheet.picture();
    let answer = board::judge(&picture, record);
    assert_eq!(answer.code, code, "{record:?}");
    assert_eq!(board::Answer::from(sets::judge(sheet, record)), answer);
    assert_eq!(board::Answer::from(fast::judge(sheet, record)), answer);

    let mut out = [0; ANSWER];
    measure(
        CALLS,
        || {
            for _ in 0..CALLS {
                black_box(board::judge_into(
                    black_box(&picture),
                    black_box(record),
                    black_box(&mut out),
                ));
            }
        },
        || {
            for _ in 0..CALLS {
                black_box(sets::judge(black_box(sheet), black_box(record)));
            }
        },
        || {
            for _ in 0..CALLS {
                black_box(fast::judge(black_box(sheet), black_box(record)));
            }
        },
    )
}
