//! `selkaum_above` beside the three judges of this package: the set of all that an object is
//! under, for every number, on sheets of any value and on lists from the founding; on sheets
//! drawn by hand, with the answers written out; and its edges.

use beside::board::{self, SET};
use beside::compare;
use beside::generate::{self, Profile, Rng};
use beside::sheet::{Sheet, GEAR, GROUP, MEMBER, PICTURE};
use beside::{fast, plain};

/// What buffers are filled with, to see which bytes are written.
const PAINT: u8 = 0xa5;

/// The place of the warrants in a picture; the rules stand behind them.
const WARRANTS_AT: usize = 576;

/// The set of all that x is under, on which all four agree.
fn above(picture: &[u8; PICTURE], x: u8) -> u64 {
    compare::above(picture, x).unwrap_or_else(|difference| panic!("{difference}"))
}

fn set_of(objects: &[u8]) -> u64 {
    objects.iter().fold(0, |set, x| set | 1 << x)
}

// ---- Sheets of any value, and lists -----------------------------------------------------

/// How many sets are of a number past the table, of an object that counts as empty, of one that
/// is under itself alone, of one that is under a few, and of one that is under ten or more.
#[derive(Debug, Default)]
struct Told {
    past: usize,
    empty: usize,
    alone: usize,
    few: usize,
    many: usize,
}

impl Told {
    /// All four agree on every number from 0 to 255, and what they tell is a set as Job 3 asks
    /// for: nothing for what isn't in use; else the object itself and groups, and whatever these
    /// are under.
    fn compare(&mut self, picture: &[u8; PICTURE]) {
        let sets: Vec<u64> = (0..=255).map(|x| above(picture, x)).collect();
        for (x, &set) in sets.iter().enumerate() {
            let Some(sort) = picture[..64].get(x) else {
                assert_eq!(set, 0, "number {x}");
                self.past += 1;
                continue;
            };
            if !(GROUP..=GEAR).contains(sort) {
                assert_eq!(set, 0, "object {x} of sort {sort}");
                self.empty += 1;
                continue;
            }
            assert_eq!(set >> x & 1, 1, "object {x} is under itself");
            for g in (0..64).filter(|&g| g != x && set >> g & 1 == 1) {
                assert_eq!(picture[g], GROUP, "object {x} is under {g}");
                assert_eq!(sets[g] & !set, 0, "object {x} is under all that {g} is");
            }
            match set.count_ones() {
                1 => self.alone += 1,
                2..=9 => self.few += 1,
                _ => self.many += 1,
            }
        }
    }

    fn assert_often(&self) {
        println!("{self:?}");
        let least = [self.past, self.empty, self.alone, self.few, self.many];
        assert!(least.iter().all(|&count| count >= 1000), "{self:?}");
    }
}

#[test]
fn they_agree_on_sheets_of_any_value() {
    let mut rng = Rng::new(3001);
    let mut told = Told::default();
    for _ in 0..600 {
        told.compare(&generate::picture(&mut rng));
    }
    told.assert_often();
}

/// Most objects are stored in one or two others, of any sort: chains get long, and many end in a
/// circle, or at what is no group.
#[test]
fn they_agree_on_thin_sheets() {
    let mut rng = Rng::new(3002);
    let mut told = Told::default();
    let mut most = 0;
    for _ in 0..400 {
        let groups = rng.pick(&[60, 90, 99]);
        let second = rng.pick(&[0, 5, 30]);
        let mut picture = [0; PICTURE];
        for x in 0..64 {
            picture[x] = if rng.percent(groups) {
                GROUP
            } else {
                rng.pick(&[0, MEMBER, GEAR, 4, 255])
            };
            store(&mut picture, x, rng.below(64));
            if rng.percent(second) {
                store(&mut picture, x, rng.below(64));
            }
        }
        told.compare(&picture);
        let counts = (0..64).map(|x| board::above(&picture, x).count_ones());
        most = most.max(counts.max().expect("64 objects"));
    }
    println!("at most {most}");
    assert!(most >= 30);
    told.assert_often();
}

/// On lists from the founding, every object as the list goes on; and an accepted USE cites a rule
/// whose U the sender is under, and whose T the gear.
#[test]
fn they_agree_on_lists() {
    let (mut told, mut used) = (Told::default(), 0);
    for seed in 0..40 {
        let mut rng = Rng::new(3100 + seed);
        let profile = Profile::ALL[seed as usize % Profile::ALL.len()];
        let mut picture = board::founding();
        let records = generate::stream(&mut rng, profile, 600, fast::judge);
        for (index, record) in records.iter().enumerate() {
            let answer = board::judge(&picture, record);
            if let (0, [7, 0, 8, 0, sender, gear, _]) = (answer.code, &record[..]) {
                let rule = Sheet::from_picture(&picture).rules[answer.cited as usize];
                assert_eq!(above(&picture, *sender) >> rule.u & 1, 1);
                assert_eq!(above(&picture, *gear) >> rule.t & 1, 1);
                used += 1;
            }
            picture = answer.picture;
            if index % 20 == 19 {
                told.compare(&picture);
            }
        }
    }
    println!("{used} accepted USE");
    assert!(used >= 500);
    told.assert_often();
}

// ---- Sheets drawn by hand ---------------------------------------------------------------

/// Stores in a picture that x is directly in g: bit g of row x.
fn store(picture: &mut [u8; PICTURE], x: usize, g: usize) {
    picture[64 + 8 * x + g / 8] |= 1 << (g % 8);
}

/// The picture with these sorts, (object, sort), and stored memberships, (object, group), and
/// nothing else.
fn drawn(sorts: &[(usize, u8)], stored: &[(usize, usize)]) -> [u8; PICTURE] {
    let mut picture = [0; PICTURE];
    for &(x, sort) in sorts {
        picture[x] = sort;
    }
    for &(x, g) in stored {
        store(&mut picture, x, g);
    }
    picture
}

/// The objects of the list are under what stands beside them, and every other number, up to 255,
/// is under nothing.
fn assert_above(picture: &[u8; PICTURE], answers: &[(u8, &[u8])]) {
    for x in 0..=255 {
        let mut beside = answers.iter().filter(|(object, _)| *object == x);
        let expected = beside.next().map_or(0, |(_, over)| set_of(over));
        assert_eq!(above(picture, x), expected, "object {x}");
    }
}

#[test]
fn the_founding() {
    assert_above(&board::founding(), &[(0, &[0]), (1, &[0, 1])]);
}

/// With nothing in use nothing is under anything, though every membership is stored.
#[test]
fn nothing_in_use() {
    let mut picture = [0; PICTURE];
    assert_above(&picture, &[]);
    picture[64..WARRANTS_AT].fill(255);
    assert_above(&picture, &[]);
    for sort in [4, 5, 64, 128, 129, 130, 131, 254, 255] {
        picture[..64].fill(sort);
        assert_above(&picture, &[]);
    }
}

/// Groups 3, 4 and 5 stand in a circle, out of which 5 leads up to 6; member 10 and gear 11 are in
/// it, and group 8 leads into it. Group 7 is beside it: 6 is not in it, and it is in nothing.
#[test]
fn a_circle() {
    let sorts = [3, 4, 5, 6, 7, 8].map(|g| (g, GROUP));
    let sorts = [&sorts[..], &[(10, MEMBER), (11, GEAR)]].concat();
    let stored = [(3, 4), (4, 5), (5, 3), (5, 6), (8, 3), (10, 4), (11, 5)];
    let answers: [(u8, &[u8]); 8] = [
        (3, &[3, 4, 5, 6]),
        (4, &[3, 4, 5, 6]),
        (5, &[3, 4, 5, 6]),
        (6, &[6]),
        (7, &[7]),
        (8, &[3, 4, 5, 6, 8]),
        (10, &[3, 4, 5, 6, 10]),
        (11, &[3, 4, 5, 6, 11]),
    ];
    assert_above(&drawn(&sorts, &stored), &answers);
}

/// The circle 20, 21 leads up into the circle 40, 41, 42, and none leads back. Object 0 is in the
/// lower, 63 in the upper.
#[test]
fn two_circles() {
    let sorts = [20, 21, 40, 41, 42].map(|g| (g, GROUP));
    let sorts = [&sorts[..], &[(0, GEAR), (63, MEMBER)]].concat();
    let lower = [(20, 21), (21, 20), (21, 41)];
    let upper = [(40, 42), (42, 41), (41, 40)];
    let stored = [&lower[..], &upper, &[(0, 20), (63, 42)]].concat();
    let answers: [(u8, &[u8]); 7] = [
        (0, &[0, 20, 21, 40, 41, 42]),
        (20, &[20, 21, 40, 41, 42]),
        (21, &[20, 21, 40, 41, 42]),
        (40, &[40, 41, 42]),
        (41, &[40, 41, 42]),
        (42, &[40, 41, 42]),
        (63, &[40, 41, 42, 63]),
    ];
    assert_above(&drawn(&sorts, &stored), &answers);
}

/// A group in itself is under itself once, as without that; so are a member and gear that are
/// stored in themselves, and an empty object is under nothing still.
#[test]
fn in_itself() {
    let sorts = [(2, GROUP), (3, GROUP), (5, MEMBER), (6, GEAR), (8, 4)];
    let stored = [(2, 2), (5, 2), (2, 3), (5, 5), (6, 6), (7, 7), (8, 8)];
    let answers: [(u8, &[u8]); 4] = [(2, &[2, 3]), (3, &[3]), (5, &[2, 3, 5]), (6, &[6])];
    assert_above(&drawn(&sorts, &stored), &answers);
}

/// Stored memberships in a member, 1, and in gear, 2, don't count, and no chain goes on from
/// there to group 0, in which these two are.
#[test]
fn stored_in_members_and_gear() {
    let sorts = [0, 5].map(|g| (g, GROUP));
    let sorts = [
        &sorts[..],
        &[(1, MEMBER), (2, GEAR), (3, MEMBER), (4, GEAR)],
    ]
    .concat();
    let in_group = [(1, 0), (2, 0)];
    let elsewhere = [
        (3, 1),
        (3, 2),
        (4, 1),
        (4, 2),
        (5, 1),
        (5, 2),
        (0, 1),
        (0, 2),
        (1, 2),
        (2, 1),
    ];
    let answers: [(u8, &[u8]); 6] = [
        (0, &[0]),
        (1, &[0, 1]),
        (2, &[0, 2]),
        (3, &[3]),
        (4, &[4]),
        (5, &[5]),
    ];
    let stored = [&in_group[..], &elsewhere].concat();
    assert_above(&drawn(&sorts, &stored), &answers);
}

/// Object 5 stands between 6 and 0, and in a circle with 7. As a group it is climbed through; as
/// a member or gear it is only under 0 and 7 itself; with any other sort it is empty: it is under
/// nothing, and nothing is under it.
#[test]
fn every_sort_between() {
    for sort in 0..=255 {
        let sorts = [(0, GROUP), (5, sort), (6, MEMBER), (7, GROUP)];
        let picture = drawn(&sorts, &[(6, 5), (5, 0), (5, 7), (7, 5)]);
        let answers: [(u8, &[u8]); 4] = match sort {
            GROUP => [
                (0, &[0]),
                (5, &[0, 5, 7]),
                (6, &[0, 5, 6, 7]),
                (7, &[0, 5, 7]),
            ],
            MEMBER | GEAR => [(0, &[0]), (5, &[0, 5, 7]), (6, &[6]), (7, &[7])],
            _ => [(0, &[0]), (5, &[]), (6, &[6]), (7, &[7])],
        };
        assert_above(&picture, &answers);
    }
}

/// Chains of 63 memberships through all 64 objects: up the numbers, down the numbers, and in
/// leaps. The lowest is a group, a member or gear.
#[test]
fn chains_of_63() {
    let orders: [fn(usize) -> usize; 4] =
        [|i| i, |i| 63 - i, |i| i * 37 % 64, |i| 63 - i * 11 % 64];
    for order in orders {
        let chain: Vec<u8> = (0..64).map(|i| order(i) as u8).collect();
        let [first, last] = [chain[0], chain[63]];
        for lowest in [GROUP, MEMBER, GEAR] {
            let mut picture = [0; PICTURE];
            picture[..64].fill(GROUP);
            picture[first as usize] = lowest;
            for pair in chain.windows(2) {
                store(&mut picture, pair[0] as usize, pair[1] as usize);
            }
            assert_eq!(above(&picture, first), u64::MAX);
            assert_eq!(above(&picture, last), 1 << last);
            for (from, &x) in chain.iter().enumerate() {
                assert_eq!(above(&picture, x), set_of(&chain[from..]), "object {x}");
            }

            // Closed to a circle each is under all 64; but a member or gear closes none.
            store(&mut picture, last as usize, first as usize);
            for (from, &x) in chain.iter().enumerate() {
                let from = if lowest == GROUP { 0 } else { from };
                assert_eq!(above(&picture, x), set_of(&chain[from..]), "object {x}");
            }
        }
    }
}

/// In the two orders of the numbers, written out: x in x + 1, and x in x - 1.
#[test]
fn chains_by_number() {
    let (mut rising, mut falling) = ([0; PICTURE], [0; PICTURE]);
    rising[..64].fill(GROUP);
    falling[..64].fill(GROUP);
    for x in 0..63 {
        store(&mut rising, x, x + 1);
        store(&mut falling, x + 1, x);
    }
    for x in 0..64 {
        assert_eq!(above(&rising, x), u64::MAX << x);
        assert_eq!(above(&falling, x), u64::MAX >> (63 - x));
    }
}

/// One stored membership of x in g, for each two: x is under g, and g isn't under x.
#[test]
fn every_single_membership() {
    for x in 0..64u8 {
        for g in 0..64u8 {
            let mut picture = [0; PICTURE];
            picture[..64].fill(GROUP);
            store(&mut picture, x as usize, g as usize);
            let other = (x + 1..)
                .map(|y| y % 64)
                .find(|&y| y != g)
                .expect("a third");
            assert_eq!(above(&picture, x), set_of(&[x, g]), "{x} in {g}");
            assert_eq!(above(&picture, other), set_of(&[other]), "{x} in {g}");
            if x != g {
                assert_eq!(above(&picture, g), set_of(&[g]), "{x} in {g}");
            }
        }
    }
}

/// All 64 are groups: with every membership stored each is under all; with one row full, only its
/// object is; with one column full, each is under that group and itself.
#[test]
fn full_rows_and_columns() {
    let mut groups = [0; PICTURE];
    groups[..64].fill(GROUP);
    let mut full = groups;
    full[64..WARRANTS_AT].fill(255);
    for x in 0..64 {
        assert_eq!(above(&full, x), u64::MAX);
    }
    for y in [0, 7, 8, 31, 62, 63u8] {
        let (mut row, mut column) = (groups, groups);
        for z in 0..64 {
            store(&mut row, y as usize, z);
            store(&mut column, z, y as usize);
        }
        for x in 0..64 {
            let expected = if x == y { u64::MAX } else { set_of(&[x]) };
            assert_eq!(above(&row, x), expected);
            assert_eq!(above(&column, x), set_of(&[x, y]));
        }
    }
}

/// What stands in the places of warrants and rules is of no interest.
#[test]
fn warrants_and_rules_change_nothing() {
    let mut rng = Rng::new(3003);
    let mut changed = 0;
    for _ in 0..100 {
        let one = generate::picture(&mut rng);
        let mut other = one;
        other[WARRANTS_AT..].fill_with(|| rng.byte());
        changed += (one != other) as usize;
        for x in 0..=255 {
            assert_eq!(board::above(&one, x), board::above(&other, x));
        }
    }
    assert_eq!(changed, 100);
}

// ---- The edges --------------------------------------------------------------------------

/// Eight bytes are written and those behind them stay, for a set of some, of one and of none, and
/// for a number past the table. With fewer than eight there is nothing written, and 0 returned.
#[test]
fn lengths_of_the_buffer() {
    let mut picture = board::founding();
    picture[63] = GEAR;
    store(&mut picture, 63, 0);
    let answers: [(u8, [u8; SET]); 8] = [
        (0, [1, 0, 0, 0, 0, 0, 0, 0]),
        (1, [3, 0, 0, 0, 0, 0, 0, 0]),
        (2, [0; SET]),
        (62, [0; SET]),
        (63, [1, 0, 0, 0, 0, 0, 0, 128]),
        (64, [0; SET]),
        (65, [0; SET]),
        (255, [0; SET]),
    ];
    for (x, set) in answers {
        for room in (0..=20).chain([64, 960, 1000]) {
            let mut out = vec![PAINT; 1000];
            let written = board::above_into(&picture, x, &mut out[..room]);
            if room < SET {
                assert_eq!((written, &out), (0, &vec![PAINT; 1000]), "room {room}");
            } else {
                assert_eq!((written, &out[..SET]), (SET, &set[..]), "room {room}");
                assert!(out[SET..].iter().all(|&byte| byte == PAINT), "room {room}");
            }
        }
    }
}

/// A policy of any other length than 960 bytes: 0, and nothing is written, whatever the room.
#[test]
fn lengths_of_the_policy() {
    let longer = [board::founding(), board::founding()].concat();
    for length in [0, 1, 64, 575, 576, PICTURE - 1, PICTURE + 1, 2 * PICTURE] {
        for x in [0, 1, 2, 63, 64, 255] {
            for room in [0, 7, 8, 9, 20] {
                let mut out = [PAINT; 20];
                let written = board::above_into(&longer[..length], x, &mut out[..room]);
                assert_eq!(
                    (written, out),
                    (0, [PAINT; 20]),
                    "policy {length}, room {room}"
                );
            }
        }
    }
}

/// Buffers may start at any address.
#[test]
fn buffers_at_odd_addresses() {
    let mut rng = Rng::new(3004);
    for _ in 0..20 {
        let picture = generate::picture(&mut rng);
        let sheet = Sheet::from_picture(&picture);
        for shift in 0..16 {
            let policy = [vec![PAINT; shift], picture.to_vec()].concat();
            let x = rng.below(64) as u8;
            let mut out = [PAINT; 32];
            let at = 15 - shift;
            assert_eq!(board::above_into(&policy[shift..], x, &mut out[at..]), SET);
            let mut expected = [PAINT; 32];
            expected[at..at + SET].copy_from_slice(&plain::above(&sheet, x).to_le_bytes());
            assert_eq!(out, expected);
        }
    }
}
