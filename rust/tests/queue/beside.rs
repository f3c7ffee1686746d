//! The board beside the two lines of this package, byte for byte after each event.

use crate::club;
use beside::compare;
use beside::generate::queues::{self, Mix, Policies};
use beside::generate::Rng;
use beside::line::{self, Event, Queue};
use beside::sheet::{Sheet, PICTURE};
use beside::tally::Events;

/// What all three agree on, or the end of the test with what shows a difference. Gear and N stay,
/// but for a start.
fn agreed(seen: &mut Events, queue: &Queue, picture: &[u8; PICTURE], event: Event) -> Queue {
    let (code, after) = compare::queues::event(queue, picture, event)
        .unwrap_or_else(|difference| panic!("a difference\n{difference}"));
    if !matches!(event, Event::Start { .. }) {
        assert_eq!(after[..line::MARK_AT], queue[..line::MARK_AT]);
    }
    seen.add(queue, event, code, &after);
    after
}

/// Each way in which an event can end comes often.
fn assert_often(seen: &Events, often: usize) {
    println!("{} events: {seen:?}", seen.total());
    for (code, &came) in seen.joins.iter().enumerate() {
        let can = matches!(code, 0 | 4..=7 | 9 | 15 | 16);
        let fits = if can { came >= often } else { came == 0 };
        assert!(fits, "joins with code {code}: {came}");
    }
    let others = [
        seen.waiters_left,
        seen.holders_left,
        seen.strangers_left,
        seen.ticks_in_a_turn,
        seen.turns_over,
        seen.ticks_at_free,
        seen.found_first,
        seen.found_later,
        seen.found_nobody,
        seen.nobody_waited,
        seen.met_full,
        seen.left_full,
        seen.struck,
    ];
    assert!(others.iter().all(|&came| came >= often), "{seen:?}");
    assert_eq!(seen.most_struck, line::MOST_WAITERS);
}

/// Lists of events from a start, each event with a policy of its own.
#[test]
fn they_agree_on_lists_from_a_start() {
    let mut rng = Rng::new(5001);
    let mut seen = Events::default();
    for _ in 0..300 {
        let mut policies = Policies::draw(&mut rng);
        let mix = Mix::draw(&mut rng, 1);
        let first = queues::start(&mut rng, policies.sheet());
        let mut queue = agreed(&mut seen, &[0xa5; 16], &policies.next(&mut rng), first);
        for _ in 0..150 {
            let picture = policies.next(&mut rng);
            let sheet = Sheet::from_picture(&picture);
            let event = queues::event(&mut rng, mix, &sheet, &queue);
            queue = agreed(&mut seen, &queue, &picture, event);
            assert!(!line::malformed(&queue));
        }
    }
    assert_often(&seen, 60);
    assert!(seen.starts >= 400);
    assert_eq!((seen.malformed_altered, seen.malformed_kept), (0, 0));
}

/// Records of any value, and a few events on from each.
#[test]
fn they_agree_on_records_of_any_value() {
    let mut rng = Rng::new(5002);
    let mut seen = Events::default();
    for _ in 0..100 {
        let mut policies = Policies::draw(&mut rng);
        for _ in 0..120 {
            let mut picture = policies.next(&mut rng);
            let mut sheet = Sheet::from_picture(&picture);
            let mut queue = queues::queue(&mut rng, &sheet);
            let mix = Mix::draw(&mut rng, 0);
            for _ in 0..1 + rng.below(5) {
                let event = queues::event(&mut rng, mix, &sheet, &queue);
                queue = agreed(&mut seen, &queue, &picture, event);
                picture = policies.next(&mut rng);
                sheet = Sheet::from_picture(&picture);
            }
        }
    }
    assert_often(&seen, 60);
    assert!(seen.malformed_altered >= 300 && seen.malformed_kept >= 1000);
}

/// Every user and every gear, on a free radio, a held one and a malformed record.
#[test]
fn they_agree_on_all_numbers() {
    let mut seen = Events::default();
    let picture = club().picture();
    let queues = [
        [6, 2, 0, 0, 0, 0, 0, 0, 0, 0, 0, 0, 0, 0, 0, 0],
        [6, 2, 0, 1, 10, 1, 0, 3, 63, 12, 13, 0, 0, 0, 0, 0],
        [6, 2, 0, 1, 10, 3, 0, 3, 63, 12, 13, 0, 0, 0, 0, 0],
    ];
    for mut queue in queues {
        for number in 0..=255 {
            for event in [Event::Join { user: number }, Event::Leave { user: number }] {
                agreed(&mut seen, &queue, &picture, event);
            }
        }
        for number in 0..=255 {
            queue[line::GEAR_AT] = number;
            for event in [Event::Tick, Event::Join { user: 14 }] {
                agreed(&mut seen, &queue, &picture, event);
            }
        }
    }
    println!("{seen:?}");
    assert_eq!(seen.total(), 3 * 4 * 256);
    assert!(seen.joins[0] >= 20 && seen.joins[5] >= 3 * 192);
}

/// Every count, mark, ticks left and N near the edges, on one line of eight.
#[test]
fn they_agree_on_the_edges_of_each_field() {
    let mut seen = Events::default();
    let picture = club().picture();
    let numbers = [0u16, 1, 2, 255, 256, 257, 599, 600, 601, 65535];
    for n in numbers {
        for left in numbers {
            for mark in [0, 1, 2, 255] {
                for count in [0, 1, 7, 8, 9, 255] {
                    let mut queue = [
                        6, 0, 0, mark, 10, 0, 0, count, 11, 12, 13, 14, 15, 16, 17, 18,
                    ];
                    queue[1..3].copy_from_slice(&n.to_le_bytes());
                    queue[5..7].copy_from_slice(&left.to_le_bytes());
                    for event in [
                        Event::Tick,
                        Event::Join { user: 19 },
                        Event::Join { user: 18 },
                        Event::Leave { user: 10 },
                        Event::Leave { user: 18 },
                    ] {
                        agreed(&mut seen, &queue, &picture, event);
                    }
                }
            }
        }
    }
    println!("{seen:?}");
    assert_eq!(seen.total(), 10 * 10 * 4 * 6 * 5);
    assert!(seen.malformed_kept >= 1000 && seen.turns_over >= 30);
    assert!(seen.malformed_altered >= 1000 && seen.joins[16] >= 30);
}
