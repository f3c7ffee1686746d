//! The questions about a policy beside the plain judge's own reach and holdings: on sheets of any
//! value, on lists from the founding, and on sheets drawn by hand with the answers written out;
//! what requests get, beside what is told; the sizes of buffers; the picture of the founding; and
//! the lines of a report.

#[path = "questions/drawn.rs"]
mod drawn;
#[path = "questions/lines.rs"]
mod lines;
#[path = "questions/requests.rs"]
mod requests;
#[path = "questions/sizes.rs"]
mod sizes;
#[path = "questions/stored.rs"]
mod stored;
#[path = "questions/told.rs"]
mod told;

use beside::generate::{self, Profile, Rng};
use beside::question::Question::{self, *};
use beside::sheet::{GEAR, GROUP, MEMBER, PICTURE};
use beside::{board, fast};
use told::Told;

/// What buffers are filled with, to see which bytes are written.
const PAINT: u8 = 0xa5;

/// The objects of this sort on the sheet of a picture.
fn of_sort(picture: &[u8; PICTURE], sort: u8) -> Vec<u8> {
    (0..64).filter(|&x| picture[x as usize] == sort).collect()
}

/// The pictures that lists of every profile come to, from the founding on: one for every so many
/// records.
fn pictures_of_lists(seeds: std::ops::Range<u64>, every: usize) -> Vec<[u8; PICTURE]> {
    let mut pictures = Vec::new();
    for seed in seeds {
        let mut rng = Rng::new(seed);
        let profile = Profile::ALL[seed as usize % Profile::ALL.len()];
        let mut picture = board::founding();
        let records = generate::stream(&mut rng, profile, 600, fast::judge);
        for (index, record) in records.iter().enumerate() {
            picture = board::judge(&picture, record).picture;
            if index % every == every - 1 {
                pictures.push(picture);
            }
        }
    }
    pictures
}

/// Questions with one number, for every number.
fn with_one_number() -> impl Iterator<Item = Question> {
    (0..=255).flat_map(|n| {
        [
            Sort { x: n },
            Below { g: n },
            Owned { u: n },
            Managed { u: n },
        ]
    })
}

/// What is asked of each sheet of a test: every question with one number; what each member
/// administers with every object and some numbers past the table; what everyone is permitted, and
/// a member with operations past 7 too; the permitting place for every member, operation and gear;
/// and the same of any numbers, most of them in use.
fn ask_enough(told: &mut Told, picture: &[u8; PICTURE], rng: &mut Rng) {
    let (members, gear) = (of_sort(picture, MEMBER), of_sort(picture, GEAR));
    let mut ask = told.on(picture);
    with_one_number().for_each(&mut ask);
    for u in 0..=255 {
        (0..8).for_each(|k| ask(Permitted { u, k }));
    }
    for &u in &members {
        let past = [64, 64 + u, 128 + u, 192 + u, 255];
        (0..64).chain(past).for_each(|a| ask(Administered { u, a }));
        (8..=255).step_by(13).for_each(|k| ask(Permitted { u, k }));
        for k in 0..8 {
            gear.iter().for_each(|&x| ask(Permitting { u, k, x }));
        }
    }
    for _ in 0..300 {
        let [u, a, x] = [64; 3].map(|span| any_number(rng, span));
        let k = any_number(rng, 8);
        ask(Administered { u, a });
        ask(Permitted { u, k });
        ask(Permitting { u, k, x });
    }
}

/// A number below the span, or now and then any byte.
fn any_number(rng: &mut Rng, span: usize) -> u8 {
    if rng.percent(70) {
        rng.below(span) as u8
    } else {
        rng.byte()
    }
}

#[test]
fn they_agree_on_sheets_of_any_value() {
    let mut rng = Rng::new(4001);
    let mut told = Told::default();
    for _ in 0..500 {
        ask_enough(&mut told, &generate::picture(&mut rng), &mut rng);
    }
    told.assert_often();
}

#[test]
fn they_agree_on_lists() {
    let mut rng = Rng::new(4002);
    let mut told = Told::default();
    for picture in pictures_of_lists(4100..4140, 50) {
        ask_enough(&mut told, &picture, &mut rng);
    }
    told.assert_often();
}

/// On a few sheets every pair of numbers, and with some operations every three.
#[test]
fn they_agree_on_all_numbers() {
    let mut rng = Rng::new(4003);
    let mut told = Told::default();
    let of_any_value = [0; 4].map(|_| generate::picture(&mut rng));
    let of_a_list = pictures_of_lists(4202..4204, 600);
    for picture in of_any_value.iter().chain(&of_a_list) {
        let mut ask = told.on(picture);
        for m in 0..=255 {
            for n in 0..=255 {
                ask(Administered { u: m, a: n });
                ask(Permitted { u: m, k: n });
                for k in [0, 3, 7, 8, 255] {
                    ask(Permitting { u: m, k, x: n });
                }
            }
        }
    }
    println!("{told:?}");
    assert!(told.permits() >= 1000 && told.pairs() >= 500, "{told:?}");
}

/// A picture of nothing but sorts, most of them groups, and one stored membership of each object:
/// chains get long, and many end in a circle.
fn thin(rng: &mut Rng) -> [u8; PICTURE] {
    let mut picture = [0; PICTURE];
    for x in 0..64 {
        picture[x] = if rng.percent(80) {
            GROUP
        } else {
            rng.pick(&[MEMBER, GEAR, 0])
        };
        let g = rng.below(64);
        picture[64 + 8 * x + g / 8] |= 1 << (g % 8);
    }
    picture
}

/// What is under g is each object that `selkaum_above` has g for.
#[test]
fn below_is_above_turned() {
    let mut rng = Rng::new(4004);
    let (mut most, mut circles) = (0, 0);
    for turn in 0..2000 {
        let picture = if turn % 2 == 0 {
            thin(&mut rng)
        } else {
            generate::picture(&mut rng)
        };
        let above: Vec<u64> = (0..64).map(|x| board::above(&picture, x)).collect();
        for g in 0..64 {
            let below = board::ask(&picture, Below { g });
            let turned = (0..64).fold(0, |set, x| set | (above[x] >> g & 1) << x);
            assert_eq!(below, turned, "object {g}");
            most = most.max(below.count_ones());
            circles += ((below & above[g as usize]).count_ones() > 1) as usize;
        }
    }
    println!("at most {most}, {circles} in a circle");
    assert!(most >= 50 && circles >= 1000);
}
