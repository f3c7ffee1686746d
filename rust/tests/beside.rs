//! The proved board and the judges of this package, the plain one, the one with sets and the
//! fast one, give the same answers: on streams from the founding, as reports and record by
//! record, and on single requests on sheets of any value.

use beside::board;
use beside::compare::{self, shortest};
use beside::fast;
use beside::generate::{self, Profile, Rng, CODES};
use beside::sheet::Sheet;
use beside::tally::{Counts, Shapes, Withdrawals};

const STREAMS_PER_PROFILE: usize = 40;
const RECORDS_PER_STREAM: usize = 1000;

/// How often at least each pair of kind and code that can come has to come.
const PAIR_ON_STREAMS: usize = 200;
const PAIR_ON_SHEETS: usize = 50;

/// How often at least a WITHDRAW has to come from each sender and on each rule of `Withdrawals`.
const WITHDRAWAL_ON_SHEETS: usize = 20;

/// All the streams of the tests, the same on every run.
fn streams() -> impl Iterator<Item = Vec<Vec<u8>>> {
    (0..STREAMS_PER_PROFILE as u64).flat_map(|seed| {
        Profile::ALL.into_iter().map(move |profile| {
            let mut rng = Rng::new(seed * 4 + profile as u64);
            generate::stream(&mut rng, profile, RECORDS_PER_STREAM, fast::judge)
        })
    })
}

/// What all four agree on, or the end of the test with what shows a difference.
fn agreed<T>(compared: Result<T, String>) -> T {
    compared.unwrap_or_else(|difference| panic!("a difference\n{difference}"))
}

/// Each record is judged on the picture that the board returned for the one before. Each pair
/// of kind and code that can come comes, and no other; and the streams take all shapes: long
/// chains, circles, groups in themselves and full tables.
#[test]
fn they_agree_record_by_record() {
    let mut counts = Counts::default();
    let mut shapes = Shapes::default();
    for records in streams() {
        let mut last = Sheet::founding();
        agreed(compare::each_record(&records, |record, answer| {
            counts.add(record, answer.code);
            last = Sheet::from_picture(&answer.picture);
            shapes.add_any(&last);
        }));
        shapes.add_last(&last);
    }
    println!("{} stream records; {shapes}\n{counts}", counts.total());
    assert!(counts.total() >= 100_000);
    for kind in 0..=8 {
        for code in 0..=12 {
            let can = match kind {
                0 => code == 2,
                _ => CODES[kind - 1].contains(&code),
            };
            assert_comes(&counts, kind, code, can, PAIR_ON_STREAMS);
        }
    }
    assert!(shapes.longest_chain >= 40, "{shapes}");
    assert!(shapes.circles >= 40 && shapes.selves >= 20, "{shapes}");
    assert!(shapes.full_objects >= 20, "{shapes}");
    assert!(
        shapes.full_warrants >= 5 && shapes.full_rules >= 5,
        "{shapes}"
    );
}

/// The pair comes often if it can come, and never if it can't.
fn assert_comes(counts: &Counts, kind: usize, code: u8, can: bool, often: usize) {
    let came = counts.of(kind, code);
    let fits = if can { came >= often } else { came == 0 };
    assert!(fits, "kind {kind} code {code} came {came} times\n{counts}");
}

/// The reports are the same byte for byte, of whole streams and of torn ones.
#[test]
fn they_agree_on_reports() {
    let mut rng = Rng::new(41);
    let mut lines = 0;
    for records in streams() {
        let text = agreed(compare::reports(&records.concat()));
        let count = text.iter().filter(|&&byte| byte == b'\n').count();
        assert_eq!(count, records.len());
        lines += count;

        let kept = &records[..rng.below(100)];
        let torn = [kept.concat(), generate::torn_tail(&mut rng)].concat();
        let text = agreed(compare::reports(&torn));
        let torn_line = format!("{} 1 255\n", kept.len());
        assert!(text.ends_with(torn_line.as_bytes()));
    }
    println!("{lines} lines of reports");
    assert!(lines >= 100_000);
}

/// The reports are the same for streams in which some bytes are changed, so that later lengths,
/// kinds and fields are read out of the middle of records.
#[test]
fn they_agree_on_spoilt_streams() {
    let mut rng = Rng::new(42);
    let (mut torn, mut whole) = (0, 0);
    for _ in 0..400 {
        let profile = rng.pick(&Profile::ALL);
        let mut input = generate::stream(&mut rng, profile, 100, fast::judge).concat();
        for _ in 0..1 + rng.below(8) {
            let at = rng.below(input.len());
            input[at] = rng.pick(&[0, 1, 2, 4, 6, 7, 8, 9, 10, 63, 64, 255]);
        }
        let text = agreed(compare::reports(&input));
        let ends_torn = text.ends_with(b" 1 255\n");
        torn += ends_torn as usize;
        whole += !ends_torn as usize;
    }
    println!("{torn} torn, {whole} whole");
    assert!(torn >= 50 && whole >= 50);
}

/// Sheets have junk of every sort in every field, and requests any bytes. Each pair comes as on
/// streams; a record whose length field lies is torn, whatever its kind.
#[test]
fn they_agree_on_single_requests() {
    let mut rng = Rng::new(77);
    let mut counts = Counts::default();
    let mut withdrawals = Withdrawals::default();
    for _ in 0..30_000 {
        let picture = generate::picture(&mut rng);
        let sheet = Sheet::from_picture(&picture);
        for _ in 0..5 {
            let record = generate::request(&mut rng, &sheet);
            let answer = agreed(compare::single(&picture, &record));
            counts.add(&record, answer.code);
            withdrawals.add(&sheet, &record, answer.code);
        }
    }
    println!("{} single requests\n{counts}", counts.total());
    println!("{withdrawals:?}");
    assert!(counts.total() >= 100_000);
    assert!(
        withdrawals.least() >= WITHDRAWAL_ON_SHEETS,
        "{withdrawals:?}"
    );
    for kind in 0..=8 {
        for code in 0..=12 {
            let can = match kind {
                0 => code == 1 || code == 2,
                _ => code == 1 || CODES[kind - 1].contains(&code),
            };
            assert_comes(&counts, kind, code, can, PAIR_ON_SHEETS);
        }
    }
}

/// The sheets of the single requests are junk where they should be: every field that a sheet
/// stores is at times outside its table, and every mark byte but 1 is an empty place.
#[test]
fn sheets_have_junk_in_every_field() {
    let mut rng = Rng::new(78);
    let mut outside = [0; 8];
    for _ in 0..3000 {
        let picture = generate::picture(&mut rng);
        let sheet = Sheet::from_picture(&picture);
        let in_use = |w: &&beside::sheet::Warrant| (1..=3).contains(&w.kind);
        outside[0] += sheet.sorts.iter().filter(|&&sort| sort > 3).count();
        outside[1] += sheet.warrants.iter().filter(|w| w.kind > 3).count();
        for w in sheet.warrants.iter().filter(in_use) {
            outside[2] += (w.holder > 63) as usize;
            outside[3] += (w.a > 63) as usize;
            outside[4] += (w.b > 63) as usize;
        }
        for r in sheet.rules.iter().filter(|r| r.mark) {
            outside[5] += (r.u > 63) as usize;
            outside[6] += (r.t > 63) as usize;
        }
        outside[7] += picture[704..].iter().step_by(4).filter(|&&m| m > 1).count();
    }
    println!("sorts, kinds, holders, A, B, U, T, marks: {outside:?}");
    assert!(outside.iter().all(|&count| count >= 200), "{outside:?}");
}

/// So are their memberships, as the rows of a picture have them: in groups, in members and gear, in
/// empty objects, of empty objects, and of groups in themselves.
#[test]
fn sheets_have_junk_among_their_memberships() {
    let mut rng = Rng::new(80);
    let mut stored = [0; 5];
    for _ in 0..3000 {
        let picture = generate::picture(&mut rng);
        for x in 0..64 {
            for g in (0..64).filter(|g| picture[64 + 8 * x + g / 8] >> (g % 8) & 1 == 1) {
                let empty = |object: usize| !(1..=3).contains(&picture[object]);
                stored[0] += (picture[g] == 1) as usize;
                stored[1] += (picture[g] == 2 || picture[g] == 3) as usize;
                stored[2] += empty(g) as usize;
                stored[3] += empty(x) as usize;
                stored[4] += (x == g && picture[g] == 1) as usize;
            }
        }
    }
    println!("in groups, in members and gear, in empty, of empty, in itself: {stored:?}");
    assert!(stored.iter().all(|&count| count >= 1000), "{stored:?}");
}

/// From a long list in which one record after another shows something, only these two are left.
#[test]
fn the_shortest_list_has_what_it_needs() {
    let mut rng = Rng::new(79);
    let (first, second) = (vec![1, 2, 3], vec![4, 5]);
    for _ in 0..20 {
        let mut list: Vec<Vec<u8>> = (0..100).map(|_| vec![rng.byte()]).collect();
        list.insert(rng.below(40), first.clone());
        list.insert(60 + rng.below(40), second.clone());
        let shown = |list: &[Vec<u8>]| {
            let place = |wanted| list.iter().position(|part| part == wanted);
            matches!((place(&first), place(&second)), (Some(f), Some(s)) if f < s)
        };
        assert_eq!(shortest(&list, shown), [first.clone(), second.clone()]);
    }
}

/// The generator's streams are the same for the same seed, whichever judge they follow.
#[test]
fn streams_are_the_same_for_the_same_seed() {
    let by_board = |sheet: &Sheet, record: &[u8]| {
        let answer = board::judge(&sheet.picture(), record);
        beside::sheet::Answer {
            sheet: Sheet::from_picture(&answer.picture),
            code: answer.code,
            cited: answer.cited,
        }
    };
    for profile in Profile::ALL {
        let followed = generate::stream(&mut Rng::new(9), profile, 300, by_board);
        let again = generate::stream(&mut Rng::new(9), profile, 300, fast::judge);
        assert_eq!(followed, again);
    }
}
