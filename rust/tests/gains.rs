//! `selkaum_gain` beside the plain judge: the first permit that a record refused for own gain
//! would give its sender, on lists from the founding and on sheets of any value; and its edges.

use beside::generate::{self, Profile, Rng};
use beside::sheet::{Sheet, PICTURE};
use beside::{board, fast, plain};

/// What buffers are filled with, to see which bytes are written.
const PAINT: u8 = 0xa5;

/// How often a permit was told, how often a gain without one was refused, and how many records
/// were answered otherwise; and how often the permit was of another operation than 0.
#[derive(Debug, Default)]
struct Told {
    permits: usize,
    no_permit: usize,
    otherwise: usize,
    later: usize,
}

impl Told {
    /// The board tells what the plain judge finds.
    fn compare(&mut self, picture: &[u8; PICTURE], record: &[u8], code: u8) {
        let sheet = Sheet::from_picture(picture);
        let gain = board::gain(picture, record);
        let (bytes, found) = (record.to_vec(), plain::permit_refused(&sheet, record));
        assert_eq!(gain, found, "{bytes:?} on {picture:?}");
        match (code, gain) {
            (plain::OWN_GAIN, Some((_, k))) => {
                self.permits += 1;
                self.later += (k > 0) as usize;
            }
            (plain::OWN_GAIN, None) => self.no_permit += 1,
            _ => self.otherwise += 1,
        }
    }

    fn assert_often(&self) {
        println!("{self:?}");
        let Told {
            permits,
            no_permit,
            otherwise,
            later,
        } = *self;
        assert!(permits >= 100 && no_permit >= 100, "{self:?}");
        assert!(otherwise >= 1000 && later >= 50, "{self:?}");
    }
}

#[test]
fn they_agree_on_lists() {
    let mut told = Told::default();
    for seed in 0..100 {
        let mut rng = Rng::new(1000 + seed);
        let profile = Profile::ALL[seed as usize % Profile::ALL.len()];
        let mut picture = board::founding();
        for record in generate::stream(&mut rng, profile, 600, fast::judge) {
            let answer = board::judge(&picture, &record);
            told.compare(&picture, &record, answer.code);
            picture = answer.picture;
        }
    }
    told.assert_often();
}

#[test]
fn they_agree_on_sheets_of_any_value() {
    let mut rng = Rng::new(1077);
    let mut told = Told::default();
    for _ in 0..8000 {
        let picture = generate::picture(&mut rng);
        let sheet = Sheet::from_picture(&picture);
        for _ in 0..5 {
            let record = generate::request(&mut rng, &sheet);
            told.compare(&picture, &record, board::judge(&picture, &record).code);
        }
    }
    told.assert_often();
}

/// The founder, member 1, administers group 0, in which he and gear 5 and 9 are; rule 7 permits
/// him operations 0 and 1 on gear 5 alone.
fn club() -> [u8; PICTURE] {
    let mut picture = board::founding();
    picture[5] = 3;
    picture[9] = 3;
    picture[64 + 8 * 5] |= 1 << 0;
    picture[64 + 8 * 9] |= 1 << 0;
    picture[580..584].copy_from_slice(&[3, 1, 0, 0]);
    picture[704 + 28..704 + 32].copy_from_slice(&[1, 0, 5, 0b11]);
    picture
}

/// Member 1 grants group 0 these operations on group 0, at place 0.
fn grant(operations: u8) -> [u8; 9] {
    [9, 0, 6, 0, 1, 0, 0, 0, operations]
}

/// Gear before operation, and each from the lowest on; what he is permitted already is no gain.
#[test]
fn the_first_of_several() {
    assert_eq!(board::gain(&club(), &grant(0b1000_1000)), Some((5, 3)));
    assert_eq!(board::gain(&club(), &grant(0b1000_0000)), Some((5, 7)));
    assert_eq!(board::gain(&club(), &grant(0b0000_0111)), Some((5, 2)));
    assert_eq!(board::gain(&club(), &grant(0b0000_0011)), Some((9, 0)));
    assert_eq!(board::gain(&club(), &grant(0b0000_0010)), Some((9, 1)));
}

/// A gain that is no permit, and records that are answered otherwise, tell nothing.
#[test]
fn nothing_to_tell() {
    let manager_of_all = [10, 0, 4, 0, 1, 2, 2, 1, 0, 0];
    assert_eq!(board::judge(&club(), &manager_of_all).code, 10);
    assert_eq!(board::gain(&club(), &manager_of_all), None);
    let answered = [
        (&[8, 0, 1, 0, 1, 2, 2, 0][..], 0),
        (&[7, 0, 8, 0, 1, 5, 0], 0),
        (&[9, 0], 1),
        (&[], 1),
        (&grant(0), 5),
        (&[7, 0, 8, 0, 1, 9, 0], 9),
        (&[6, 0, 5, 0, 1, 0], 12),
    ];
    for (record, code) in answered {
        assert_eq!(board::judge(&club(), record).code, code);
        assert_eq!(board::gain(&club(), record), None);
    }
}

/// Only two bytes are written, and none where a length doesn't fit.
#[test]
fn lengths() {
    let (picture, record) = (club(), grant(0b1000));
    for room in 0..=4 {
        let mut gain = [PAINT; 6];
        let written = board::gain_into(&picture, &record, &mut gain[..room]);
        let whole = room >= 2;
        assert_eq!(written, if whole { 2 } else { 0 });
        let start = if whole { [5, 3] } else { [PAINT; 2] };
        assert_eq!((&gain[..2], &gain[2..]), (&start[..], &[PAINT; 4][..]));
    }
    let longer = [&picture[..], &[0]].concat();
    for length in [0, 1, PICTURE - 1, PICTURE + 1] {
        let mut gain = [PAINT; 2];
        assert_eq!(board::gain_into(&longer[..length], &record, &mut gain), 0);
        assert_eq!(gain, [PAINT; 2]);
    }
}
