//! Measures the proved board, the judge with sets and the fast judge in one run, on the same
//! bytes:
//!
//!     cargo run --release --offline --bin bench
//!
//! It prints the tables of `docs/SPEED.md`. Everything is measured in several passes, in each of
//! them in short turns, the three by turns; the shortest time of each counts. So noise hits all of
//! them, and some turns are undisturbed.

mod cards;
mod club;
mod growth;
mod heavy;
mod kinds;
mod queues;
mod stack;
mod streams;
mod timing;

use timing::{keep_shorter, ROUNDS, SHIFTS};

const PASSES: usize = 15;

fn main() {
    let tables = [
        streams::measure,
        kinds::measure,
        growth::measure,
        heavy::measure,
        heavy::measure_dearest,
        cards::measure,
        queues::measure,
    ];
    let mut shortest = tables.map(|measure| measure());
    for _ in 1..PASSES {
        for (rows, measure) in shortest.iter_mut().zip(tables) {
            keep_shorter(rows, measure());
        }
    }
    let [streams, kinds, growth, heavy, dearest, cards, queues] = shortest;
    println!(
        "Nanoseconds, the best of {} turns.\n",
        PASSES * ROUNDS * SHIFTS
    );
    streams::print(&streams);
    kinds::print(&kinds);
    growth::print(&growth);
    heavy::print(&heavy);
    heavy::print_dearest(&dearest);
    cards::print(&cards);
    queues::print(&queues);
    stack::print();
}
