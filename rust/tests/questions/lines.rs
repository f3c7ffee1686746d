//! `selkaum_lines` beside the report: how many lines the whole one has, whatever the input.

use crate::PAINT;
use beside::generate::{self, Profile, Rng};
use beside::report::{Next, Reader};
use beside::{board, fast};

/// No line of a report has more bytes.
const LONGEST_LINE: usize = 28;

/// How many inputs were empty, whole and torn, and how many reports were cut off.
#[derive(Debug, Default)]
struct Counted {
    empty: usize,
    whole: usize,
    torn: usize,
    lines: usize,
    cut: usize,
}

/// One line for each record that the reader of this package finds, and one for a torn place.
fn records_and_torn(input: &[u8]) -> (usize, bool) {
    let mut reader = Reader::new(input);
    let mut records = 0;
    loop {
        match reader.next_record() {
            Next::Record(_) => records += 1,
            next => return (records, next == Next::Torn),
        }
    }
}

fn line_feeds(text: &[u8]) -> usize {
    text.iter().filter(|&&byte| byte == b'\n').count()
}

impl Counted {
    /// The board tells as many lines as its report has, and 28 bytes for each have room for all of
    /// it. A buffer that is too short, by a byte and by more, gets fewer line feeds than that.
    fn compare(&mut self, input: &[u8], cuts: impl IntoIterator<Item = usize>) {
        let lines = board::lines(input);
        let (records, torn) = records_and_torn(input);
        assert_eq!(lines, records + torn as usize, "{} bytes", input.len());
        let report = board::report(input);
        assert_eq!(lines, line_feeds(&report), "{} bytes", input.len());

        let mut out = vec![PAINT; lines * LONGEST_LINE];
        let written = board::report_into(input, &mut out);
        assert!(out[..written] == report, "{} bytes", input.len());
        for room in cuts.into_iter().filter(|&room| room < report.len()) {
            let written = board::report_into(input, &mut out[..room]);
            assert_eq!(written, room);
            assert!(line_feeds(&out[..written]) < lines, "room {room}");
            self.cut += 1;
        }

        self.empty += input.is_empty() as usize;
        self.torn += torn as usize;
        self.whole += (!torn && !input.is_empty()) as usize;
        self.lines += lines;
    }

    /// With a report cut by a byte, by a line, by half and to a byte.
    fn compare_cut(&mut self, input: &[u8]) {
        let length = board::report(input).len();
        let cuts = [1, 9, length / 2, length.max(1) - 1];
        self.compare(input, cuts.map(|less| length.saturating_sub(less)));
    }
}

fn some_stream(rng: &mut Rng, count: usize) -> Vec<u8> {
    let profile = rng.pick(&Profile::ALL);
    generate::stream(rng, profile, count, fast::judge).concat()
}

/// Streams as they are, with a torn tail, cut off anywhere, and with some bytes changed.
#[test]
fn on_streams() {
    let mut rng = Rng::new(4501);
    let mut counted = Counted::default();
    for _ in 0..200 {
        let length = rng.below(200);
        let stream = some_stream(&mut rng, length);
        counted.compare_cut(&stream);
        let torn = [&stream[..], &generate::torn_tail(&mut rng)].concat();
        counted.compare_cut(&torn);
        counted.compare_cut(&stream[..rng.below(stream.len() + 1)]);
        let mut spoilt = torn;
        for _ in 0..1 + rng.below(8) {
            let at = rng.below(spoilt.len());
            spoilt[at] = rng.pick(&[0, 1, 2, 4, 6, 7, 8, 9, 10, 63, 64, 255]);
        }
        counted.compare_cut(&spoilt);
    }
    println!("{counted:?}");
    assert!(counted.whole >= 100 && counted.torn >= 200, "{counted:?}");
    assert!(
        counted.lines >= 20_000 && counted.cut >= 2000,
        "{counted:?}"
    );
}

/// Garbage: any bytes; small ones, whose length fields are small; and records of any bytes, whose
/// length fields tell the truth, one after the other.
#[test]
fn on_garbage() {
    let mut rng = Rng::new(4502);
    let mut counted = Counted::default();
    for turn in 0..6000 {
        let length = rng.below([4, 30, 1000][turn % 3]);
        let input: Vec<u8> = match rng.below(3) {
            0 => (0..length).map(|_| rng.byte()).collect(),
            1 => (0..length)
                .map(|_| rng.below(9) as u8 * (rng.below(2) as u8))
                .collect(),
            _ => (0..length / 8)
                .flat_map(|_| generate::framed_garbage(&mut rng))
                .collect(),
        };
        counted.compare_cut(&input);
    }
    println!("{counted:?}");
    assert!(counted.empty >= 500 && counted.whole >= 500, "{counted:?}");
    assert!(
        counted.torn >= 2000 && counted.lines >= 20_000,
        "{counted:?}"
    );
}

/// A short stream cut off at every byte, and its report at every byte.
#[test]
fn at_every_byte() {
    let mut counted = Counted::default();
    let stream = some_stream(&mut Rng::new(4503), 40);
    for length in 0..=stream.len() {
        let input = &stream[..length];
        counted.compare(input, 0..board::report(input).len());
    }
    println!("{counted:?}");
    assert_eq!((counted.empty, counted.whole), (1, 40));
    assert!(counted.torn >= 200 && counted.cut >= 40_000, "{counted:?}");
}

/// Written out: no bytes; records, torn ones in each way and the longest; and as many records as
/// give indices of up to seven digits.
#[test]
fn by_hand() {
    let longest = [vec![255, 255, 1, 0], vec![0; 65_531]].concat();
    let inputs: [(&[u8], usize); 13] = [
        (&[], 0),
        (&[0], 1),
        (&[4, 0, 1], 1),
        (&[4, 0, 1, 0], 1),
        (&[4, 0, 1, 0, 4], 2),
        (&[4, 0, 1, 0, 4, 0, 9, 9], 2),
        (&[3, 0, 1, 0, 4, 0, 9, 9], 1),
        (&[0, 0, 1, 0, 4, 0, 9, 9], 1),
        (&[9, 0, 1, 0, 4, 0, 9, 9], 1),
        (&[8, 0, 1, 0, 4, 0, 9, 9], 1),
        (&[5, 0, 1, 0, 4, 0, 9, 9], 2),
        (&longest, 1),
        (&longest[..65_534], 1),
    ];
    for (input, lines) in inputs {
        assert_eq!(board::lines(input), lines, "{} bytes", input.len());
        Counted::default().compare_cut(input);
    }
    for count in [9, 10, 11, 99, 100, 101, 999, 1000, 1001, 100_000, 1_000_001] {
        let input = [4, 0, 7, 0].repeat(count);
        assert_eq!(board::lines(&input), count);
        assert_eq!(board::lines(&input[..4 * count - 1]), count);
        assert_eq!(board::lines(&input[..4 * count - 4]), count - 1);
        Counted::default().compare_cut(&input);
    }
}

/// The input may start at any address.
#[test]
fn at_odd_addresses() {
    let stream = some_stream(&mut Rng::new(4504), 100);
    for shift in 0..16 {
        let shifted = [vec![PAINT; shift], stream.clone()].concat();
        assert_eq!(board::lines(&shifted[shift..]), 100);
    }
}
