//! Job 2, "Save the sheet to a card", on sheets: what is written and what comes back, which sheets
//! aren't sound, the lent bytes, and lists of requests from a sheet that was read. The proved
//! board, the plain pair and the fast pair give the same, byte for byte. Damaged cards have a test
//! of their own.

use beside::board::{self, CARD_ANSWER};
use beside::card::{self, agree, sound, tidy, DAMAGED, LARGEST, SHORT_CARD};
use beside::compare::{self, cards::pattern};
use beside::fast;
use beside::generate::cards::{self, Fault, Fill};
use beside::generate::{self, Profile, Rng};
use beside::sheet::*;

const DONE: u8 = 0;

/// What all agree on, or the end of the test with what shows a difference.
fn agreed<T>(compared: Result<T, String>) -> T {
    compared.unwrap_or_else(|difference| panic!("a difference\n{difference}"))
}

/// The code and the file of all three with so many bytes lent; those past the file are as they
/// were.
fn written(picture: &[u8; PICTURE], room: usize) -> (u8, Vec<u8>) {
    agreed(compare::cards::write(picture, room))
}

/// The code and the sheet after of all three, with the sheet of this picture kept.
fn read(kept: &[u8; PICTURE], card: &[u8]) -> (u8, Sheet) {
    let (code, picture) = agreed(compare::cards::read(kept, card));
    let sheet = Sheet::from_picture(&picture);
    assert_eq!(sheet.picture(), picture, "each mark is 0 or 1");
    (code, sheet)
}

/// A sheet that is kept: of any value, most often not sound, with marks that count as empty.
fn any_kept(rng: &mut Rng) -> [u8; PICTURE] {
    generate::picture(rng)
}

// ---- By hand ----------------------------------------------------------------------------

/// Group 0, member 1, the member in the group, and the owner's warrant.
const FOUNDING: [u8; 27] = [
    6, 0, 16, 0, 0, 1, //
    6, 0, 16, 0, 1, 2, //
    6, 0, 17, 0, 1, 0, //
    9, 0, 18, 0, 0, 1, 1, 0, 0,
];

#[test]
fn the_founding() {
    let founding = Sheet::founding();
    assert!(sound(&founding));
    assert_eq!(written(&board::founding(), 27), (DONE, FOUNDING.to_vec()));
    assert_eq!(written(&board::founding(), 26), (SHORT_CARD, vec![]));
    let kept = Sheet::empty().picture();
    assert_eq!(read(&kept, &FOUNDING), (DONE, founding));
}

/// A sheet with all four kinds of record, the memberships by object and then by group though
/// they are stored by group; what an empty place holds isn't written and doesn't come back.
#[test]
fn a_sheet_with_everything() {
    let mut sheet = Sheet::founding();
    for (x, sort) in [(5, GROUP), (9, GEAR), (63, MEMBER), (20, 4), (21, 255)] {
        sheet.sorts[x] = sort;
    }
    sheet.members[0] |= 1 << 5 | 1 << 63;
    sheet.members[5] = 1 << 0 | 1 << 5 | 1 << 9 | 1 << 63;
    let warrant = |kind, holder, a, b| Warrant { kind, holder, a, b };
    sheet.warrants[2] = warrant(4, 200, 201, 202);
    sheet.warrants[31] = warrant(ADMINISTRATOR, 63, 5, 0);
    let rule = |mark, u, t, ops| Rule { mark, u, t, ops };
    sheet.rules[7] = rule(false, 77, 78, 79);
    sheet.rules[63] = rule(true, 0, 5, 128);
    let file = [
        &[6, 0, 16, 0, 0, 1, 6, 0, 16, 0, 1, 2, 6, 0, 16, 0, 5, 1][..],
        &[6, 0, 16, 0, 9, 3, 6, 0, 16, 0, 63, 2],
        &[6, 0, 17, 0, 0, 5, 6, 0, 17, 0, 1, 0, 6, 0, 17, 0, 5, 0],
        &[6, 0, 17, 0, 5, 5, 6, 0, 17, 0, 9, 5],
        &[6, 0, 17, 0, 63, 0, 6, 0, 17, 0, 63, 5],
        &[9, 0, 18, 0, 0, 1, 1, 0, 0, 9, 0, 18, 0, 31, 3, 63, 5, 0],
        &[8, 0, 19, 0, 63, 0, 5, 128],
    ]
    .concat();
    assert_eq!(written(&sheet.picture(), 200), (DONE, file.clone()));
    let mut back = sheet;
    (back.sorts[20], back.sorts[21]) = (0, 0);
    back.warrants[2] = Warrant::default();
    back.rules[7] = Rule::default();
    assert_eq!(read(&board::founding(), &file), (DONE, back));
}

/// A sheet with nothing in use is sound, whatever its empty places hold; its file has no bytes,
/// and the empty card reads as the blank sheet.
#[test]
fn nothing_in_use() {
    let mut rng = Rng::new(2001);
    for _ in 0..50 {
        let mut sheet = Sheet::empty();
        cards::strew_junk(&mut rng, &mut sheet);
        let picture = generate::picture_of(&mut rng, &sheet);
        assert!(sound(&sheet));
        for room in [0, 1, 100] {
            assert_eq!(written(&picture, room), (DONE, vec![]));
        }
        assert_eq!(read(&any_kept(&mut rng), &[]), (DONE, Sheet::empty()));
        // A stored membership alone is a fault, of an empty object in an empty one.
        let (g, x) = (rng.below(64), rng.below(64));
        sheet.members[g] |= 1 << x;
        assert_eq!(written(&sheet.picture(), 100), (DAMAGED, vec![]));
    }
}

/// The longest file of a sound sheet, in a buffer that just has room and in one that lacks a byte.
#[test]
fn the_longest_file() {
    let mut rng = Rng::new(2002);
    for _ in 0..5 {
        let sheet = cards::sound(&mut rng, Fill::Full);
        let picture = sheet.picture();
        let (code, file) = written(&picture, LARGEST);
        assert_eq!((code, file.len()), (DONE, 25_376));
        assert_eq!(written(&picture, LARGEST - 1), (SHORT_CARD, vec![]));
        assert_eq!(written(&picture, LARGEST + 1), (DONE, file.clone()));
        assert_eq!(read(&any_kept(&mut rng), &file), (DONE, sheet));
    }
}

// ---- Sound sheets -----------------------------------------------------------------------

/// A sound sheet is written into any buffer that has room, into no shorter one, and comes back
/// the same in every place in use and every membership, with zeros in its empty places.
#[test]
fn written_and_read() {
    let mut rng = Rng::new(2003);
    let (mut with_junk, mut lengths, mut short) = (0, Vec::new(), 0);
    for fill in Fill::ALL {
        for _ in 0..80 {
            let sheet = cards::sound_with_junk(&mut rng, fill);
            assert!(sound(&sheet) && sound(&tidy(&sheet)), "{sheet:?}");
            let picture = generate::picture_of(&mut rng, &sheet);
            let file = card::file(&sheet);
            let length = file.len();
            for room in [length, length + 1, length + 2, length + rng.below(300)] {
                assert_eq!(written(&picture, room), (DONE, file.clone()));
            }
            for room in [0, length / 2, length.saturating_sub(1)] {
                if room < length {
                    assert_eq!(written(&picture, room), (SHORT_CARD, vec![]));
                    short += 1;
                }
            }
            let (code, back) = read(&any_kept(&mut rng), &file);
            assert_eq!((code, back), (DONE, tidy(&sheet)));
            assert!(agree(&back, &sheet));
            assert_eq!(written(&back.picture(), length), (DONE, file));
            with_junk += (back != sheet) as usize;
            lengths.push(length);
        }
    }
    lengths.sort();
    lengths.dedup();
    println!(
        "{with_junk} sheets with junk, {} lengths, {short} short",
        lengths.len()
    );
    assert!(with_junk >= 50 && lengths.len() >= 150 && short >= 900);
    assert_eq!(lengths.last(), Some(&LARGEST));
}

/// "Two sound sheets have equal files exactly when they agree in every place in use and every
/// membership": on pairs that differ in their empty places alone, in one thing in use, and in all.
#[test]
fn equal_files() {
    let mut rng = Rng::new(2004);
    let (mut equal, mut one_apart, mut apart) = (0, 0, 0);
    for _ in 0..1500 {
        let fill = rng.pick(&[
            Fill::Blank,
            Fill::Sparse,
            Fill::Sparse,
            Fill::Dense,
            Fill::Grown,
        ]);
        let one = cards::sound_with_junk(&mut rng, fill);
        let mut other = tidy(&one);
        let changed = rng.percent(60);
        if changed {
            change_one_thing(&mut rng, &mut other);
        }
        cards::strew_junk(&mut rng, &mut other);
        for other in [other, cards::sound(&mut rng, Fill::Sparse)] {
            if !sound(&other) {
                continue;
            }
            let files = [one, other].map(|sheet| written(&sheet.picture(), LARGEST));
            assert_eq!([files[0].0, files[1].0], [DONE; 2]);
            let same = same_in_use(&one, &other);
            assert_eq!(files[0].1 == files[1].1, same, "{one:?}\n{other:?}");
            assert_eq!(agree(&one, &other), same);
            equal += (same && one != other) as usize;
            let few = files[0].1.len().abs_diff(files[1].1.len()) <= 9;
            one_apart += (!same && few) as usize;
            apart += (!same && !few) as usize;
        }
    }
    println!("{equal} equal, {one_apart} nearly so, {apart} apart");
    assert!(equal >= 300 && one_apart >= 200 && apart >= 300);
}

/// Do two sheets agree, number by number and place by place?
fn same_in_use(one: &Sheet, other: &Sheet) -> bool {
    let sort = |sheet: &Sheet, x: usize| Some(sheet.sorts[x]).filter(|s| (1..=3).contains(s));
    let warrant =
        |sheet: &Sheet, p: usize| Some(sheet.warrants[p]).filter(|w| (1..=3).contains(&w.kind));
    let rule = |sheet: &Sheet, p: usize| Some(sheet.rules[p]).filter(|r| r.mark);
    (0..64).all(|x| sort(one, x) == sort(other, x))
        && (0..64).all(|g| one.members[g] == other.members[g])
        && (0..32).all(|p| warrant(one, p) == warrant(other, p))
        && (0..64).all(|p| rule(one, p) == rule(other, p))
}

/// Changes a sort, a membership, a field of a warrant or of a rule, or fills or empties a place.
fn change_one_thing(rng: &mut Rng, sheet: &mut Sheet) {
    let used: Vec<usize> = (0..64).filter(|&x| sheet.sorts[x] != 0).collect();
    let groups: Vec<usize> = (0..64).filter(|&x| sheet.sorts[x] == GROUP).collect();
    if groups.is_empty() {
        *sheet = Sheet::founding();
        return;
    }
    let (x, g) = (rng.pick(&used), rng.pick(&groups));
    let (w, r) = (rng.below(WARRANTS), rng.below(RULES));
    match rng.below(7) {
        0 => sheet.sorts[x] = rng.pick(&[MEMBER, GEAR]),
        1 => sheet.members[g] ^= 1 << x,
        2 => sheet.warrants[w].kind = rng.pick(&[0, OWNER, MANAGER]),
        3 => sheet.warrants[w].a = g as u8,
        4 => sheet.rules[r].ops = rng.byte(),
        5 => {
            let (u, t) = (g as u8, rng.pick(&groups) as u8);
            let (mark, ops) = (true, 1 << rng.below(8));
            sheet.rules[r] = Rule { mark, u, t, ops };
        }
        _ => sheet.rules[r] = Rule::default(),
    }
}

/// Every sheet on a list from the founding is sound, whatever the list.
#[test]
fn lists_leave_sound_sheets() {
    let mut checked = 0;
    for seed in 0..12 {
        let profile = Profile::ALL[seed as usize % 4];
        let mut rng = Rng::new(2100 + seed);
        let mut picture = board::founding();
        for record in generate::stream(&mut rng, profile, 250, fast::judge) {
            let answer = board::judge(&picture, &record);
            picture = answer.picture;
            if answer.code == DONE && record[2] != 8 {
                let sheet = Sheet::from_picture(&picture);
                let (code, file) = written(&picture, LARGEST);
                assert_eq!((code, &file), (DONE, &card::file(&sheet)));
                assert_eq!(read(&board::founding(), &file), (DONE, sheet));
                checked += 1;
            }
        }
    }
    println!("{checked} sheets");
    assert!(checked >= 1000);
}

// ---- Sheets that aren't sound -----------------------------------------------------------

/// Each clause of "sound" by itself: one byte makes a sound sheet unsound. It is refused with 13
/// whatever the buffer, also where 14 would apply, and nothing is written; and its file is damaged.
#[test]
fn one_fault() {
    let mut rng = Rng::new(2005);
    let mut lengths_refused = 0;
    for fault in Fault::ALL {
        for _ in 0..40 {
            let [before, after] = cards::spoilt(&mut rng, fault);
            assert!(sound(&before), "before {fault:?}: {before:?}");
            assert!(!sound(&after), "{fault:?}: {after:?}");
            let bytes = before.picture().into_iter().zip(after.picture());
            assert_eq!(bytes.filter(|(a, b)| a != b).count(), 1, "{fault:?}");
            let picture = generate::picture_of(&mut rng, &before);
            let file = card::file(&before);
            assert_eq!(written(&picture, file.len()), (DONE, file));

            let picture = generate::picture_of(&mut rng, &after);
            let file = card::file(&after);
            for room in [0, file.len() - 1, file.len(), file.len() + 1, LARGEST] {
                assert_eq!(written(&picture, room), (DAMAGED, vec![]), "{fault:?}");
                lengths_refused += 1;
            }
            let kept = any_kept(&mut rng);
            let answer = read(&kept, &file);
            assert_eq!(answer, (DAMAGED, Sheet::from_picture(&kept)), "{fault:?}");
        }
    }
    assert_eq!(lengths_refused, Fault::ALL.len() * 40 * 5);
}

/// B of an administrator may be 0, which is object 0: sound if that is a group.
#[test]
fn b_0_of_an_administrator() {
    let mut sheet = Sheet::founding();
    let (kind, holder) = (ADMINISTRATOR, 1);
    sheet.warrants[9] = Warrant {
        kind,
        holder,
        a: 0,
        b: 0,
    };
    assert_eq!(written(&sheet.picture(), LARGEST).0, DONE);
    // The same club with its group at 2.
    let mut moved = sheet;
    (moved.sorts[0], moved.sorts[2]) = (0, GROUP);
    (moved.members[0], moved.members[2]) = (0, 1 << 1);
    moved.warrants[0].a = 2;
    moved.warrants[9].a = 2;
    assert_eq!(written(&moved.picture(), LARGEST), (DAMAGED, vec![]));
    moved.warrants[9].b = 2;
    assert_eq!(written(&moved.picture(), LARGEST).0, DONE);
    // B of the owner stays 0, though no object 0 is there.
    assert_eq!(moved.warrants[0].b, 0);
}

/// Owners through a chain of 62 groups and on a circle count; a manager, an administrator and a
/// holder of an emptied place don't own.
#[test]
fn owners() {
    let mut chain = Sheet::founding();
    for group in 2..64 {
        chain.sorts[group] = GROUP;
        let above = if group == 2 { 0 } else { group - 1 };
        chain.members[above] |= 1 << group;
    }
    assert_eq!(written(&chain.picture(), LARGEST).0, DONE);
    chain.members[30] = 0;
    assert_eq!(written(&chain.picture(), LARGEST).0, DAMAGED);
    // The lower half becomes a circle of its own, then one that reaches back to the upper half.
    chain.members[63] = 1 << 31;
    assert_eq!(written(&chain.picture(), LARGEST).0, DAMAGED);
    chain.members[10] |= 1 << 40;
    assert_eq!(written(&chain.picture(), LARGEST).0, DONE);
    for kind in [MANAGER, ADMINISTRATOR, 0, 4, 255] {
        let mut other = chain;
        other.warrants[0].kind = kind;
        assert_eq!(written(&other.picture(), LARGEST).0, DAMAGED, "kind {kind}");
    }
}

/// Sheets of any value: most aren't sound.
#[test]
fn sheets_of_any_value() {
    let mut rng = Rng::new(2006);
    let (mut refused, mut whole) = (0, 0);
    for _ in 0..4000 {
        let picture = generate::picture(&mut rng);
        let sheet = Sheet::from_picture(&picture);
        let file = card::file(&sheet);
        let (code, bytes) = written(&picture, file.len());
        let (code_read, after) = read(&picture, &file);
        if sound(&sheet) {
            assert_eq!((code, bytes), (DONE, file));
            assert_eq!((code_read, after), (DONE, tidy(&sheet)));
            whole += 1;
        } else {
            assert_eq!((code, bytes), (DAMAGED, vec![]));
            assert_eq!((code_read, after), (DAMAGED, sheet));
            refused += 1;
        }
    }
    println!("{refused} refused, {whole} sound");
    assert!(refused >= 2000 && whole >= 20);
}

// ---- Lists from a sheet that was read ---------------------------------------------------

/// A list judged from the sheet that was read gets the codes and cited rules that it gets from
/// the sheet that was written, by the board and by each judge, whatever the empty places held;
/// and the sheets agree after each record, and stay sound.
#[test]
fn lists_from_a_read_sheet() {
    let mut rng = Rng::new(2007);
    let mut came = [0; 13];
    let (mut cited, mut with_junk) = (0, 0);
    for _ in 0..40 {
        for round in 0..12 {
            let fill = match round {
                0 => Fill::Full,
                1 => Fill::Dense,
                2..=4 => Fill::Sparse,
                _ => Fill::Grown,
            };
            let mut old = cards::sound_with_junk(&mut rng, fill);
            let (_, file) = written(&old.picture(), LARGEST);
            let (_, mut new) = read(&any_kept(&mut rng), &file);
            with_junk += (old != new) as usize;
            for _ in 0..25 {
                let record = generate::request(&mut rng, &new);
                let from_old = agreed(compare::single(&old.picture(), &record));
                let from_new = agreed(compare::single(&new.picture(), &record));
                let answer = (from_new.code, from_new.cited);
                assert_eq!((from_old.code, from_old.cited), answer, "{record:?}");
                old = Sheet::from_picture(&from_old.picture);
                new = Sheet::from_picture(&from_new.picture);
                assert!(agree(&old, &new), "{record:?}");
                came[answer.0 as usize] += 1;
                cited += (answer.1 != NO_RULE) as usize;
            }
            assert_eq!(written(&new.picture(), LARGEST).0, DONE);
        }
    }
    println!("codes {came:?}, {cited} rules cited, {with_junk} sheets with junk");
    assert!(came[0] >= 500 && cited >= 50 && with_junk >= 30);
    assert!((2..13).all(|code| came[code] >= 3), "{came:?}");
}

// ---- Lengths ----------------------------------------------------------------------------

/// Pictures of every wrong length, and a right one.
fn policies(picture: &[u8; PICTURE]) -> [Vec<u8>; 6] {
    let longer = [&picture[..], &picture[..]].concat();
    let lengths = [0, 1, PICTURE - 1, PICTURE + 1, 2 * PICTURE, PICTURE];
    lengths.map(|length| longer[..length].to_vec())
}

/// The writer with a policy of another length, or without room for the code, writes nothing at
/// all and returns 0. Of a longer room for the code it writes the first byte alone.
#[test]
fn lengths_at_the_writer() {
    let mut unsound = Sheet::founding();
    unsound.members[1] = 1;
    let (mut wrote, mut refused) = (0, 0);
    for (sheet, code, length) in [(Sheet::founding(), DONE, 27), (unsound, DAMAGED, 0)] {
        for policy in policies(&sheet.picture()) {
            for code_room in [0, 1, 2, 9] {
                for card_room in [0, 26, 27, 28, 64] {
                    let (mut lent, mut codes) = (pattern(80), pattern(16));
                    let result = board::write_card_into(
                        &policy,
                        &mut lent[..card_room],
                        &mut codes[..code_room],
                    );
                    let (mut lent_after, mut codes_after) = (pattern(80), pattern(16));
                    let fits = policy.len() == PICTURE && code_room > 0;
                    let short = code == DONE && card_room < length;
                    if fits {
                        codes_after[0] = if short { SHORT_CARD } else { code };
                    }
                    let written = if fits && !short { length } else { 0 };
                    lent_after[..written].copy_from_slice(&FOUNDING[..written]);
                    assert_eq!((result, &codes), (written, &codes_after));
                    assert_eq!(lent, lent_after);
                    wrote += (result > 0) as usize;
                    refused += !fits as usize;
                }
            }
        }
    }
    assert_eq!((wrote, refused), (9, 210));
}

/// The reader with a policy of another length, or with too little room for the answer, writes
/// nothing and returns 0. Otherwise it writes 961 bytes and none behind them.
#[test]
fn lengths_at_the_reader() {
    let mut rng = Rng::new(2008);
    let kept = any_kept(&mut rng);
    let (mut read, mut refused) = (0, 0);
    let handed_back = Sheet::from_picture(&kept).picture();
    let cards = [
        (&FOUNDING[..], DONE, board::founding()),
        (&FOUNDING[..26], DAMAGED, handed_back),
        (&[], DONE, [0; PICTURE]),
    ];
    for (card, code, after) in cards {
        for policy in policies(&kept) {
            for room in [
                0,
                1,
                PICTURE - 1,
                PICTURE,
                CARD_ANSWER,
                CARD_ANSWER + 1,
                1100,
            ] {
                let mut answer = pattern(1200);
                let result = board::read_card_into(&policy, card, &mut answer[..room]);
                let mut expected = pattern(1200);
                let fits = policy.len() == PICTURE && room >= 961;
                if fits {
                    expected[..PICTURE].copy_from_slice(&after);
                    expected[PICTURE] = code;
                }
                assert_eq!(result, if fits { 961 } else { 0 });
                assert!(answer == expected, "{room} bytes lent");
                read += fits as usize;
                refused += !fits as usize;
            }
        }
    }
    assert_eq!((read, refused), (9, 117));
}
