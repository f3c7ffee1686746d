//! Holds the proved board against the three judges of this package for a given time:
//!
//!     cargo run --release --bin soak -- SECONDS SEED
//!
//! The seconds are those of the processor that it has worked, so that time in which it waits or
//! is stopped doesn't count.
//!
//! Streams from the founding are compared as whole reports, whole, torn and with bytes changed,
//! and record by record; single requests on sheets of any value, and what a few of their objects
//! are under; cards that are written, read back and damaged; events at a radio, from a start and
//! on records of any value. A difference is printed with the shortest list of records, or with the
//! sheet, the card or the queue, that shows it, and ends the run with status 1. At the end it
//! prints how much was compared.

use beside::card;
use beside::compare;
use beside::fast;
use beside::generate::cards::{self, Damage, Fault, Fill};
use beside::generate::queues::{self, Mix, Policies};
use beside::generate::{self, Profile, Rng};
use beside::line::Queue;
use beside::sheet::{Sheet, PICTURE};
use beside::tally::{Counts, Events, Shapes};
use std::process::ExitCode;
use std::time::{Duration, Instant};

const SHEETS_PER_TURN: usize = 400;
const REQUESTS_PER_SHEET: usize = 5;
const OBJECTS_PER_SHEET: usize = 5;
const CARDS_PER_TURN: usize = 100;
const QUEUES_PER_TURN: usize = 40;
const EVENTS_PER_QUEUE: usize = 100;

fn main() -> ExitCode {
    let arguments: Vec<String> = std::env::args().skip(1).collect();
    let numbers: Vec<Option<u64>> = arguments.iter().map(|a| a.parse().ok()).collect();
    let &[Some(seconds), Some(seed)] = &numbers[..] else {
        eprintln!("usage: soak SECONDS SEED");
        return ExitCode::from(2);
    };
    match soak(Duration::from_secs(seconds), seed) {
        Ok(()) => ExitCode::SUCCESS,
        Err(difference) => {
            println!("seed {seed}: a difference\n{difference}");
            ExitCode::FAILURE
        }
    }
}

/// Takes turns until the time is over, and tells every five minutes how far it is.
fn soak(time: Duration, seed: u64) -> Result<(), String> {
    let start = Instant::now();
    let mut rng = Rng::new(seed);
    let mut done = Done::default();
    let mut told = 0;
    while worked() < time {
        for profile in Profile::ALL {
            done.stream(&mut rng, profile)?;
        }
        for _ in 0..SHEETS_PER_TURN {
            done.requests(&mut rng)?;
        }
        for _ in 0..CARDS_PER_TURN {
            done.cards(&mut rng)?;
        }
        for _ in 0..QUEUES_PER_TURN {
            done.turns(&mut rng)?;
        }
        if worked().as_secs() / 300 > told {
            told = worked().as_secs() / 300;
            println!("{} s: {}, no difference", 300 * told, done.so_far());
        }
    }
    println!(
        "seed {seed}, {} s of work in {} s, no difference between the board, plain, sets and fast",
        worked().as_secs(),
        start.elapsed().as_secs()
    );
    println!("{}", done.so_far());
    println!("streams: {}", done.shapes);
    println!("stream records by kind and code\n{}", done.on_streams);
    println!("single requests by kind and code\n{}", done.on_sheets);
    println!("{:?}", done.events);
    Ok(())
}

/// The time that the processor has worked for this program.
fn worked() -> Duration {
    #[repr(C)]
    struct Time {
        seconds: i64,
        nanoseconds: i64,
    }
    extern "C" {
        fn clock_gettime(clock: i32, time: *mut Time) -> i32;
    }
    /// Linux's `CLOCK_PROCESS_CPUTIME_ID`.
    const OF_THIS_PROCESS: i32 = 2;
    let mut time = Time {
        seconds: 0,
        nanoseconds: 0,
    };
    // SAFETY: on 64-bit Linux a `timespec` is two 64-bit numbers, and this one is lent for the call.
    let failed = unsafe { clock_gettime(OF_THIS_PROCESS, &mut time) };
    assert_eq!(failed, 0, "the clock of the process is there");
    Duration::new(time.seconds as u64, time.nanoseconds as u32)
}

/// What has been compared.
#[derive(Default)]
struct Done {
    streams: usize,
    reports: usize,
    report_lines: usize,
    on_streams: Counts,
    on_sheets: Counts,
    /// How many sets of all that an object is under have so many objects: none, one, more.
    above: [usize; 3],
    shapes: Shapes,
    /// How many cards were written, and how many read, with code 0 and with another.
    written: [usize; 2],
    read: [usize; 2],
    /// What came of the events at a radio.
    events: Events,
}

impl Done {
    fn so_far(&self) -> String {
        format!(
            "{} streams of {} records one by one; {} reports with {} lines; {} single requests; \
             {} objects under nothing, {} under themselves alone and {} under more; \
             {} cards written and {} refused, {} read and {} damaged; {} events at a radio",
            self.streams,
            self.on_streams.total(),
            self.reports,
            self.report_lines,
            self.on_sheets.total(),
            self.above[0],
            self.above[1],
            self.above[2],
            self.written[0],
            self.written[1],
            self.read[0],
            self.read[1],
            self.events.total()
        )
    }

    /// One stream: record by record, and as four reports.
    fn stream(&mut self, rng: &mut Rng, profile: Profile) -> Result<(), String> {
        let count = 1 + rng.below(1500);
        let records = generate::stream(rng, profile, count, fast::judge);
        let mut last = Sheet::founding();
        compare::each_record(&records, |record, answer| {
            self.on_streams.add(record, answer.code);
            if answer.code == 0 {
                last = Sheet::from_picture(&answer.picture);
                self.shapes.add_any(&last);
            }
        })?;
        self.shapes.add_last(&last);
        self.streams += 1;

        let whole = records.concat();
        self.report(&whole)?;
        let torn = [whole.clone(), generate::torn_tail(rng)].concat();
        self.report(&torn)?;
        let mut spoilt = whole;
        for _ in 0..1 + rng.below(20) {
            let at = rng.below(spoilt.len());
            spoilt[at] = if rng.percent(50) {
                rng.byte()
            } else {
                rng.below(12) as u8
            };
        }
        self.report(&spoilt)
    }

    fn report(&mut self, input: &[u8]) -> Result<(), String> {
        let text = compare::reports(input)?;
        self.reports += 1;
        self.report_lines += text.iter().filter(|&&byte| byte == b'\n').count();
        Ok(())
    }

    /// A few requests on one sheet of any value, and what a few numbers are under.
    fn requests(&mut self, rng: &mut Rng) -> Result<(), String> {
        let picture = generate::picture(rng);
        let sheet = Sheet::from_picture(&picture);
        for _ in 0..REQUESTS_PER_SHEET {
            let record = generate::request(rng, &sheet);
            let answer = compare::single(&picture, &record)?;
            self.on_sheets.add(&record, answer.code);
        }
        for _ in 0..OBJECTS_PER_SHEET {
            let anywhere = rng.percent(10);
            let x = rng.below(if anywhere { 256 } else { 64 }) as u8;
            let set = compare::above(&picture, x)?;
            self.above[set.count_ones().min(2) as usize] += 1;
        }
        Ok(())
    }

    /// A sound sheet, one with a fault and one of any value, each written and its file read; and
    /// that card changed, and another with a damage of its own.
    fn cards(&mut self, rng: &mut Rng) -> Result<(), String> {
        let (fill, fault) = (rng.pick(&Fill::ALL), rng.pick(&Fault::ALL));
        let [_, spoilt] = cards::spoilt(rng, fault);
        let sheets = [
            cards::sound_with_junk(rng, fill),
            spoilt,
            generate::sheet(rng),
        ];
        for sheet in sheets {
            let picture = generate::picture_of(rng, &sheet);
            let file = card::file(&sheet);
            let short = rng.percent(30) as usize;
            for room in [file.len().saturating_sub(short), rng.below(card::LARGEST)] {
                let (code, _) = compare::cards::write(&picture, room)?;
                self.written[(code != 0) as usize] += 1;
            }
            let kept = generate::picture(rng);
            self.card(&kept, &file)?;
            self.card(&kept, &cards::changed_card(rng, &file))?;
        }
        let damage = rng.pick(&Damage::ALL);
        self.card(&sheets[2].picture(), &cards::damaged(rng, damage))
    }

    /// A list of events, from a start or on records of any value, each with a policy of its own.
    fn turns(&mut self, rng: &mut Rng) -> Result<(), String> {
        let mut policies = Policies::draw(rng);
        let mix = Mix::draw(rng, 1);
        let any = rng.percent(50);
        let mut queue: Queue = [0; 16];
        let mut event = queues::start(rng, policies.sheet());
        for _ in 0..EVENTS_PER_QUEUE {
            let picture = policies.next(rng);
            let (code, after) = compare::queues::event(&queue, &picture, event)?;
            self.events.add(&queue, event, code, &after);
            queue = if any && rng.percent(40) {
                queues::queue(rng, policies.sheet())
            } else {
                after
            };
            event = queues::event(rng, mix, policies.sheet(), &queue);
        }
        Ok(())
    }

    fn card(&mut self, kept: &[u8; PICTURE], card: &[u8]) -> Result<(), String> {
        let (code, _) = compare::cards::read(kept, card)?;
        self.read[(code != 0) as usize] += 1;
        Ok(())
    }
}
