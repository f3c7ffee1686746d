//! Job 2, "The reader takes only what the writer produces for a sound sheet": cards that are cut,
//! lengthened, disordered, changed or made of anything. The proved board, the plain reader and the
//! fast one give the same; for all but a file the code is 13 and the kept sheet comes back.

use beside::card::{self, sound, tidy, DAMAGED, LARGEST, RULE, WARRANT};
use beside::compare;
use beside::generate::cards::{self, records, Damage, Fill};
use beside::generate::{self, Rng};
use beside::sheet::{Sheet, PICTURE};

const DONE: u8 = 0;

/// The code of all three for a card with this sheet kept. A refusal hands the sheet back bit for
/// bit, with 0 for every mark that isn't 1; what is accepted is sound, has zeros in its empty
/// places, and its file is the card.
fn code(kept: &[u8; PICTURE], card: &[u8]) -> u8 {
    let (code, picture) = compare::cards::read(kept, card)
        .unwrap_or_else(|difference| panic!("a difference\n{difference}"));
    let kept = Sheet::from_picture(kept);
    let after = Sheet::from_picture(&picture);
    match code {
        DONE => {
            assert!(sound(&after) && tidy(&after) == after, "{card:?}");
            assert_eq!(card::file(&after), card);
            assert_eq!(after.picture(), picture);
        }
        DAMAGED => assert_eq!(picture, kept.picture(), "{card:?}"),
        _ => panic!("code {code} for {card:?}"),
    }
    code
}

fn file(rng: &mut Rng, fill: Fill) -> Vec<u8> {
    card::file(&cards::sound(rng, fill))
}

/// Each kind of damage by itself, with sheets of any value kept.
#[test]
fn one_damage() {
    let mut rng = Rng::new(3001);
    let (mut refused, mut kept_changed) = (0, 0);
    for damage in Damage::ALL {
        for _ in 0..200 {
            let kept = generate::picture(&mut rng);
            let card = cards::damaged(&mut rng, damage);
            assert!(!card.is_empty());
            assert_eq!(code(&kept, &card), DAMAGED, "{damage:?}: {card:?}");
            refused += 1;
            kept_changed += (Sheet::from_picture(&kept).picture() != kept) as usize;
        }
    }
    println!("{kept_changed} kept sheets with other marks than 0 and 1");
    assert_eq!(refused, 200 * Damage::ALL.len());
    assert!(kept_changed >= 1000);
}

/// Every proper prefix. Between the bounds of records all are damaged; what ends behind the last
/// warrant is a file without the later rules, and without any byte it is that of the blank sheet;
/// but what ends before the first warrant lacks its owner.
#[test]
fn every_prefix() {
    let mut rng = Rng::new(3002);
    let (mut inside, mut early, mut late) = (0, 0, 0);
    for fill in [
        Fill::Sparse,
        Fill::Grown,
        Fill::Sparse,
        Fill::Grown,
        Fill::Dense,
    ] {
        for _ in 0..if fill == Fill::Dense { 1 } else { 8 } {
            let kept = generate::picture(&mut rng);
            let card = file(&mut rng, fill);
            let parts = records(&card);
            let length = |kind| {
                let before = parts.iter().take_while(|r| r[2] < kind);
                before.map(Vec::len).sum::<usize>()
            };
            let (warrants, rules) = (length(WARRANT), length(RULE));
            let bounds = bounds(&parts);
            for end in 0..card.len() {
                let code = code(&kept, &card[..end]);
                if end == 0 {
                    assert_eq!(code, DONE);
                } else if !bounds.contains(&end) {
                    assert_eq!(code, DAMAGED, "{end} bytes of {card:?}");
                    inside += 1;
                } else if end <= warrants {
                    assert_eq!(code, DAMAGED, "{end} bytes of {card:?}");
                    early += 1;
                } else if end >= rules {
                    assert_eq!(code, DONE, "{end} bytes of {card:?}");
                    late += 1;
                }
            }
        }
    }
    println!("{inside} inside records, {early} before the warrants, {late} behind them");
    assert!(inside >= 5000 && early >= 500 && late >= 50);
}

/// Where records end, the start counted.
fn bounds(parts: &[Vec<u8>]) -> Vec<usize> {
    let mut end = 0;
    let ends = parts.iter().map(|part| {
        end += part.len();
        end
    });
    [0].into_iter().chain(ends).collect()
}

/// The longest file cut at each of its last records and beside them, and along its length.
#[test]
fn prefixes_of_the_longest_file() {
    let mut rng = Rng::new(3003);
    let kept = generate::picture(&mut rng);
    let card = file(&mut rng, Fill::Full);
    assert_eq!(card.len(), LARGEST);
    let bounds = bounds(&records(&card));
    let ends = (1..LARGEST).filter(|end| end % 97 == 0 || *end > LARGEST - 600);
    let (mut whole, mut damaged) = (0, 0);
    for end in ends {
        let code = code(&kept, &card[..end]);
        assert!(code == DAMAGED || bounds.contains(&end));
        whole += (code == DONE) as usize;
        damaged += (code == DAMAGED) as usize;
    }
    println!("{whole} files, {damaged} damaged");
    assert!(whole >= 60 && damaged >= 500);
}

/// A file with one byte more is damaged, whatever the byte; so is one that many bytes follow,
/// also if the card is longer than any file.
#[test]
fn bytes_behind() {
    let mut rng = Rng::new(3004);
    let kept = generate::picture(&mut rng);
    let mut refused = 0;
    for fill in Fill::ALL {
        let card = file(&mut rng, fill);
        assert_eq!(code(&kept, &card), DONE);
        for byte in 0..=255 {
            let longer = [&card[..], &[byte]].concat();
            assert_eq!(code(&kept, &longer), DAMAGED, "{byte} behind {fill:?}");
            refused += 1;
        }
        for more in [2, 3, 4, 5, 6, 8, 9, 64, LARGEST, 65_536, 65_536 + 6] {
            for byte in [0, 255] {
                let longer = [&card[..], &vec![byte; more]].concat();
                assert_eq!(code(&kept, &longer), DAMAGED, "{more} behind {fill:?}");
                refused += 1;
            }
        }
    }
    assert_eq!(refused, 5 * (256 + 22));
}

/// Every byte of small cards changed to every other value. Most are damaged; some are the file
/// of another sheet.
#[test]
fn every_byte_changed() {
    let mut rng = Rng::new(3005);
    let kept = generate::picture(&mut rng);
    let (mut whole, mut damaged) = (0, 0);
    let sparse: Vec<Vec<u8>> = (0..2).map(|_| file(&mut rng, Fill::Sparse)).collect();
    let founding = card::file(&Sheet::founding());
    for card in [vec![founding], sparse].concat() {
        for at in 0..card.len() {
            for byte in (0..=255).filter(|&byte| byte != card[at]) {
                let mut changed = card.clone();
                changed[at] = byte;
                match code(&kept, &changed) {
                    DONE => whole += 1,
                    _ => damaged += 1,
                }
            }
        }
    }
    println!("{whole} files, {damaged} damaged");
    assert!(whole >= 200 && damaged >= 20_000);
}

/// The four bytes of the frame of every record: no other value is a file's.
#[test]
fn every_frame_changed() {
    let mut rng = Rng::new(3006);
    let kept = generate::picture(&mut rng);
    let mut refused = 0;
    for fill in [Fill::Sparse, Fill::Grown] {
        let parts = records(&file(&mut rng, fill));
        for at in 0..parts.len() {
            for byte in 0..4 {
                for other in [0, 1, 5, 6, 7, 8, 9, 15, 16, 17, 18, 19, 20, 255] {
                    let mut changed = parts.clone();
                    if changed[at][byte] == other {
                        continue;
                    }
                    changed[at][byte] = other;
                    assert_eq!(code(&kept, &changed.concat()), DAMAGED);
                    refused += 1;
                }
            }
        }
    }
    println!("{refused} refused");
    assert!(refused >= 1000);
}

/// Each record of a file twice, and each pair of neighbours exchanged.
#[test]
fn every_record_twice_or_exchanged() {
    let mut rng = Rng::new(3007);
    let kept = generate::picture(&mut rng);
    let mut refused = 0;
    for fill in [
        Fill::Sparse,
        Fill::Grown,
        Fill::Sparse,
        Fill::Grown,
        Fill::Dense,
    ] {
        let parts = records(&file(&mut rng, fill));
        for at in 0..parts.len() {
            let mut twice = parts.clone();
            twice.insert(at, parts[at].clone());
            assert_eq!(code(&kept, &twice.concat()), DAMAGED);
            if at > 0 {
                let mut exchanged = parts.clone();
                exchanged.swap(at - 1, at);
                assert_eq!(code(&kept, &exchanged.concat()), DAMAGED);
            }
            refused += 1;
        }
    }
    println!("{refused} records");
    assert!(refused >= 500);
}

/// Each record of a file left out: a file, if it is a rule's; damaged, if it is an object's.
#[test]
fn every_record_left_out() {
    let mut rng = Rng::new(3008);
    let kept = generate::picture(&mut rng);
    let mut codes = [[0; 2]; 4];
    for round in 0..60 {
        let fill = [Fill::Sparse, Fill::Grown][round % 2];
        let parts = records(&file(&mut rng, fill));
        for at in 0..parts.len() {
            let mut left = parts.clone();
            left.remove(at);
            let damaged = code(&kept, &left.concat()) == DAMAGED;
            codes[(parts[at][2] - card::OBJECT) as usize][damaged as usize] += 1;
        }
    }
    println!("files and damaged, by kind {codes:?}");
    let [objects, memberships, warrants, rules] = codes;
    assert!(objects[0] == 0 && objects[1] >= 200);
    assert!(memberships[0] >= 50 && memberships[1] >= 50);
    assert!(warrants[0] >= 20 && warrants[1] >= 20);
    assert!(rules[0] >= 50 && rules[1] == 0);
}

/// Cards with a few changes of any kind, and bytes of any value, framed and not.
#[test]
fn cards_of_any_bytes() {
    let mut rng = Rng::new(3009);
    let (mut whole, mut damaged) = (0, 0);
    for round in 0..6000 {
        let kept = generate::picture(&mut rng);
        let fill = match round % 50 {
            0 => Fill::Dense,
            1..=9 => Fill::Grown,
            _ => Fill::Sparse,
        };
        let card = match round % 4 {
            0 => (0..rng.below(200)).map(|_| rng.byte()).collect(),
            1 => framed(&mut rng),
            _ => {
                let card = file(&mut rng, fill);
                cards::changed_card(&mut rng, &card)
            }
        };
        match code(&kept, &card) {
            DONE => whole += 1,
            _ => damaged += 1,
        }
    }
    println!("{whole} files, {damaged} damaged");
    assert!(whole >= 200 && damaged >= 4000);
}

/// Records of a card's kinds with any fields, in order or not.
fn framed(rng: &mut Rng) -> Vec<u8> {
    let mut parts: Vec<Vec<u8>> = Vec::new();
    for _ in 0..rng.below(12) {
        let kind = 16 + rng.below(4);
        let fields: Vec<u8> = (0..[2, 2, 5, 4][kind - 16])
            .map(|_| rng.below(4) as u8)
            .collect();
        parts.push(card::record(kind as u8, &fields));
    }
    if rng.percent(70) {
        parts.sort_by_key(|r| (r[2], r[4], r[5]));
        parts.dedup_by_key(|r| (r[2], r[4], if r[2] == card::MEMBERSHIP { r[5] } else { 0 }));
    }
    parts.concat()
}
