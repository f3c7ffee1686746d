//! The program for turns: its stored input and output, the text by hand, and the program itself
//! beside the text of this package.

use beside::generate::queues;
use beside::generate::Rng;
use beside::line::{self, Event::*};
use beside::plain;
use beside::program;
use beside::report::{report, MOST_BYTES};
use beside::sheet::Sheet;
use beside::tally::Events;
use beside::turns::{event_of, record_of, sample, text};
use std::collections::BTreeSet;

/// A file of the program's folder.
fn stored(name: &str) -> Vec<u8> {
    let folder = concat!(env!("CARGO_MANIFEST_DIR"), "/../crates/queue_run/");
    std::fs::read(format!("{folder}{name}")).expect("a stored file")
}

/// The stored files are what the sample makes, and what is printed for it.
#[test]
fn the_stored_files() {
    assert!(
        stored("stdin") == sample::input(),
        "stdin is not the sample"
    );
    let printed = text(&sample::input());
    assert_eq!(String::from_utf8(stored("stdout")).expect("text"), printed);
}

/// The sample has what it is to show: every code of a join, of a request and of a record that
/// is neither, and its lines are as many as its steps.
#[test]
fn what_the_sample_shows() {
    let (steps, printed) = (sample::steps(), text(&sample::input()));
    let lines: Vec<Vec<u16>> = printed
        .lines()
        .map(|line| {
            line.split(' ')
                .map(|word| word.parse().expect("a number"))
                .collect()
        })
        .collect();
    assert_eq!(lines.len(), steps.len());
    let mut of_joins = BTreeSet::new();
    let mut of_others = BTreeSet::new();
    for (index, ((name, record), line)) in steps.iter().zip(&lines).enumerate() {
        assert_eq!(line[0] as usize, index);
        let is_join = record[2] == 33 && record.len() == 5;
        if is_join {
            of_joins.insert(line[1]);
        } else {
            of_others.insert(line[1]);
        }
        // Where a step names its code first, that is the code printed.
        let named = name.split_once(':').map(|(code, _)| code.parse::<u16>());
        if let Some(Ok(code)) = named {
            assert_eq!(line[1], code, "{name}");
        }
    }
    assert_eq!(of_joins, BTreeSet::from([0, 4, 5, 6, 7, 9, 15, 16]));
    assert_eq!(of_others, BTreeSet::from([0, 1, 2, 3, 9]));
    assert!(lines.iter().any(|line| line.len() == 12), "a full line");
    assert_eq!(
        lines.last().map(|line| line[1..].to_vec()),
        Some(vec![1, 255])
    );
}

/// Its events come out in every way: calls that find the first, a later one and nobody; waiters
/// and holders that leave; turns that run out; a full line.
#[test]
fn what_comes_of_the_sample() {
    let mut seen = Events::default();
    let (mut sheet, mut queue) = (Sheet::founding(), line::start(0, 0));
    let mut kept_without_permit = 0;
    for (_, record) in sample::steps() {
        if let Some(event) = event_of(&record) {
            let before = queue;
            let code = line::happen(&mut queue, &sheet, event);
            seen.add(&before, event, code, &queue);
            let record = [7, 0, 8, 0, before[4], before[0], 2];
            let may = plain::judge(&sheet, &record).code == 0;
            let keeps = before[3] == 1 && queue[3..5] == before[3..5];
            kept_without_permit += (event == Tick && keeps && !may) as usize;
        } else {
            sheet = plain::judge(&sheet, &record).sheet;
        }
    }
    println!("{seen:?}");
    let came = [
        seen.found_first,
        seen.found_later,
        seen.found_nobody,
        seen.nobody_waited,
        seen.waiters_left,
        seen.holders_left,
        seen.strangers_left,
        seen.turns_over,
        seen.ticks_in_a_turn,
        seen.ticks_at_free,
        seen.left_full,
        kept_without_permit,
    ];
    assert!(came.iter().all(|&times| times >= 1), "{seen:?}");
    assert!(seen.starts >= 2 && seen.struck >= 3);
}

/// Before a START the line is that of gear 0 with N 0, at which nobody gets a turn.
#[test]
fn before_a_start() {
    let events = [Tick, Leave { user: 1 }, Join { user: 1 }, Join { user: 2 }];
    assert_eq!(
        text(&events.map(record_of).concat()),
        "0 0 255 0\n1 0 255 0\n2 7 255 0\n3 4 255 0\n"
    );
}

/// Torn places, as document 01's reader has them, are the last line.
#[test]
fn torn_places() {
    let tick = record_of(Tick);
    for torn in [
        &[4][..],
        &[4, 0, 35],
        &[3, 0, 35, 0],
        &[0; 9],
        &[6, 0, 35, 0, 1],
    ] {
        assert_eq!(text(torn), "0 1 255\n");
        let input = [&tick[..], torn].concat();
        assert_eq!(text(&input), "0 0 255 0\n1 1 255\n");
    }
    assert_eq!(text(&[]), "");
}

/// Kinds are two bytes; lengths of events are their own.
#[test]
fn strange_records() {
    for (record, line) in [
        (&[4, 0, 31, 0][..], "0 2 255\n"),
        (&[4, 0, 36, 0], "0 2 255\n"),
        (&[4, 0, 35, 1], "0 2 255\n"),
        (&[4, 0, 0, 35], "0 2 255\n"),
        (&[4, 0, 9, 0], "0 2 255\n"),
        (&[4, 0, 32, 0], "0 3 255\n"),
        (&[8, 0, 32, 0, 0, 0, 0, 0], "0 3 255\n"),
        (&[6, 0, 33, 0, 0, 0], "0 3 255\n"),
        (&[4, 0, 34, 0], "0 3 255\n"),
        (&[5, 0, 35, 0, 0], "0 3 255\n"),
        (&[4, 0, 1, 0], "0 3 255\n"),
        (&[7, 0, 32, 0, 64, 0, 0], "0 0 255 0\n"),
    ] {
        assert_eq!(text(record), line, "{record:?}");
    }
}

/// On an input without events it prints what the runner does.
#[test]
fn requests_alone() {
    let mut rng = Rng::new(5201);
    let records = beside::generate::stream(
        &mut rng,
        beside::generate::Profile::Middle,
        400,
        beside::fast::judge,
    );
    let requests: Vec<Vec<u8>> = records
        .into_iter()
        .filter(|record| !(32..=35).contains(&record[2]))
        .collect();
    let input = requests.concat();
    assert_eq!(text(&input), report(&input, plain::judge));
    assert!(requests.len() >= 390);
}

/// An input of just the most bytes, whose every record is an event with a long line of text: a
/// club, and then nine who join and tick their turns away, over and over.
fn longest_text() -> Vec<u8> {
    let club: Vec<u8> = sample::steps()
        .into_iter()
        .map(|(_, record)| record)
        .take_while(|record| record[2] < 32)
        .collect::<Vec<_>>()
        .concat();
    let mut input = [club, record_of(Start { gear: 4, n: 600 })].concat();
    while input.len() + 9 * 5 + 601 * 4 <= MOST_BYTES {
        (10..=18).for_each(|user| input.extend(record_of(Join { user })));
        (0..600).for_each(|_| input.extend(record_of(Tick)));
        input.extend(record_of(Start { gear: 4, n: 600 }));
    }
    while input.len() < MOST_BYTES {
        let left = MOST_BYTES - input.len();
        let record = if left.is_multiple_of(4) {
            record_of(Tick)
        } else {
            record_of(Join { user: 10 })
        };
        input.extend(record);
    }
    input
}

/// The longest texts are as long as the lines say.
#[test]
fn the_longest_text() {
    let input = longest_text();
    assert_eq!(input.len(), MOST_BYTES);
    let printed = text(&input);
    println!("{} bytes of text", printed.len());
    assert!(printed.len() > 500_000);
    assert!(!printed.contains(" 1 255\n"), "no record is torn");
    assert_eq!(text(&[&input[..], &[0]].concat()), "too long\n");
}

/// The program prints the same: on the stored input, on inputs of every kind, on the longest, and
/// on ones that are too long.
#[test]
#[cfg_attr(not(queue_run), ignore = "target/bin/queue_run isn't built")]
fn the_program_prints_the_same() {
    let mut rng = Rng::new(5202);
    let mut inputs = vec![vec![], stored("stdin"), longest_text(), vec![0; 200_000]];
    for _ in 0..60 {
        let count = rng.below(400);
        inputs.push(queues::input(&mut rng, count));
    }
    let long = queues::input(&mut rng, 16_000);
    assert!(long.len() > MOST_BYTES);
    for length in [1, 5, 1000, MOST_BYTES - 1, MOST_BYTES, MOST_BYTES + 1] {
        inputs.push(long[..length].to_vec());
    }
    let (mut too_long, mut torn) = (0, 0);
    for input in inputs {
        let expected = text(&input);
        let printed = program::run("queue_run", &input);
        assert!(
            printed == expected,
            "{input:?}\n{printed}\nand not\n{expected}"
        );
        too_long += (expected == "too long\n") as usize;
        torn += expected.ends_with(" 1 255\n") as usize;
    }
    println!("{torn} torn");
    assert_eq!(too_long, 2);
    assert!(torn >= 20);
}
