//! How long one waits: "For every list of events from an empty line, the sheets changing at will
//! between them, a waiter with k other waiters ahead of him, the holder not counted, holds the
//! radio, has left, or has been struck within (k + 1) times N ticks, N as so counted."

use crate::*;
use beside::board;
use beside::generate::queues::{self, Mix, Policies};
use beside::generate::Rng;
use beside::line::{self, Line};
use beside::plain;

/// For each waiter, the tick by which he waits no longer, told at each moment of his waiting; the
/// earliest counts.
struct Waits {
    /// The ticks that have been.
    clock: usize,
    latest: [Option<usize>; 64],
    held: usize,
    left: usize,
    struck: usize,
    /// How many got the radio, or were struck, at the very last tick.
    to_the_tick: usize,
    struck_to_the_tick: usize,
}

impl Waits {
    fn new() -> Waits {
        Waits {
            clock: 0,
            latest: [None; 64],
            held: 0,
            left: 0,
            struck: 0,
            to_the_tick: 0,
            struck_to_the_tick: 0,
        }
    }

    /// An event that is no start, on this sheet.
    fn add(&mut self, event: Event, sheet: &Sheet, queue: &Queue, after: &Line) {
        self.clock += (event == Tick) as usize;
        let n = line::turn_length(queue) as usize;
        for user in 0..64 {
            let latest = &mut self.latest[user as usize];
            if let Some(ahead) = after.ahead_of(user) {
                let now = self.clock + (ahead + 1) * n;
                let until = latest.map_or(now, |until| until.min(now));
                assert!(self.clock < until, "{user} waits too long: {queue:?}");
                *latest = Some(until);
            } else if let Some(until) = latest.take() {
                assert!(self.clock <= until, "{user} waited too long: {queue:?}");
                let at_last = (event == Tick && self.clock == until) as usize;
                if after.is_held_by(user) {
                    self.held += 1;
                    self.to_the_tick += at_last;
                } else if event == (Leave { user }) {
                    self.left += 1;
                } else {
                    // Struck: he was not permitted on this very sheet.
                    let record = [7, 0, 8, 0, user, queue[0], 2];
                    assert_ne!(plain::judge(sheet, &record).code, 0, "{user} was struck");
                    self.struck += 1;
                    self.struck_to_the_tick += at_last;
                }
            }
        }
    }
}

/// The board on lists of events with changing policies.
#[test]
fn nobody_waits_longer() {
    let mut rng = Rng::new(5101);
    let mut waits = Waits::new();
    for _ in 0..250 {
        let mut policies = Policies::draw(&mut rng);
        let mix = Mix::draw(&mut rng, 0);
        let first = queues::start(&mut rng, policies.sheet());
        let mut queue = [0; 16];
        assert_eq!(board::happen(&mut queue, &[0; PICTURE], first), 0);
        waits.latest = [None; 64];
        for _ in 0..200 {
            let picture = policies.next(&mut rng);
            let sheet = Sheet::from_picture(&picture);
            let event = queues::event(&mut rng, mix, &sheet, &queue);
            board::happen(&mut queue, &picture, event);
            waits.add(event, &sheet, &queue, &Line::of(&queue));
        }
    }
    println!(
        "{} held, {} left, {} struck in {} ticks; {} and {} at the last",
        waits.held,
        waits.left,
        waits.struck,
        waits.clock,
        waits.to_the_tick,
        waits.struck_to_the_tick
    );
    assert!(waits.held >= 300 && waits.left >= 300 && waits.struck >= 300);
    assert!(waits.to_the_tick >= 30 && waits.struck_to_the_tick >= 30);
}

/// The bound is reached: if nobody leaves and nobody is struck, and a turn has just begun, the
/// waiter with k ahead of him holds the radio at tick (k + 1) N, and waits at the one before.
#[test]
fn the_bound_is_reached() {
    for n in [0, 1, 2, 3, 7, 600, 601, 65535] {
        let counted: usize = match n {
            0 => 1,
            601 | 65535 => 600,
            n => n as usize,
        };
        let sheet = club();
        let joins: Vec<Event> = (10..=18).map(|user| Join { user }).collect();
        let (_, queue) = after([0; 16], &sheet, Start { gear: RADIO, n });
        let mut queue = after_all(queue, &sheet, &joins);
        let picture = sheet.picture();
        let mut began = [0; 9];
        for tick in 1..=8 * counted {
            let holder = queue[4];
            assert_eq!(board::happen(&mut queue, &picture, Tick), 0);
            if queue[4] != holder {
                began[queue[4] as usize - 10] = tick;
            }
        }
        let expected = [0, 1, 2, 3, 4, 5, 6, 7, 8].map(|turns| turns * counted);
        assert_eq!(began, expected, "N of {n}");
    }
}

/// It is reached by one who is struck, too: the last of nine whose permits have all ended but the
/// first eight's.
#[test]
fn the_bound_is_reached_by_one_who_is_struck() {
    let sheet = club();
    let joins: Vec<Event> = (10..=18).map(|user| Join { user }).collect();
    let queue = after_all(free(5), &sheet, &joins);
    let ended = club_without(&[18]);
    let before_it = after_all(queue, &ended, &[Tick; 39]);
    assert_eq!(before_it, held(5, 17, 1, &[18]));
    assert_eq!(after(before_it, &ended, Tick), (0, free(5)));
}

/// Of the ticks of a turn that has begun, fewer are left: the bound is not reached then.
#[test]
fn one_who_comes_later_waits_less() {
    let queue = after_all(
        free(5),
        &club(),
        &[Join { user: 10 }, Tick, Tick, Join { user: 11 }],
    );
    assert_eq!(queue, held(5, 10, 3, &[11]));
    assert_eq!(after_all(queue, &club(), &[Tick; 2]), held(5, 10, 1, &[11]));
    assert_eq!(after_all(queue, &club(), &[Tick; 3]), held(5, 11, 5, &[]));
}
