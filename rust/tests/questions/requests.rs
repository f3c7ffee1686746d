//! What requests get, beside what the board tells: a USE is done by the permitting place, and check
//! 9 of every other kind goes by the sets.

use crate::{any_number, of_sort, pictures_of_lists};
use beside::generate::{self, Profile, Rng};
use beside::question::Question::{self, *};
use beside::sheet::{Sheet, ADMINISTRATOR, GEAR, MEMBER, NO_RULE, PICTURE};
use beside::{board, fast, plain};

/// Is the object in the set that the question is answered with?
fn told(picture: &[u8; PICTURE], question: Question, x: u8) -> bool {
    x < 64 && board::ask(picture, question) >> x & 1 == 1
}

/// How many USE were done, how many had no authority, and how many were refused otherwise.
#[derive(Debug, Default)]
struct Used {
    done: usize,
    no_authority: usize,
    otherwise: usize,
}

impl Used {
    /// A USE of any three numbers cites the permitting place, and is done exactly if there is one;
    /// the permitted gear has it exactly then.
    fn compare(&mut self, picture: &[u8; PICTURE], [u, k, x]: [u8; 3]) {
        let answer = board::judge(picture, &[7, 0, 8, 0, u, x, k]);
        let place = board::ask(picture, Permitting { u, k, x });
        assert_eq!(place, answer.cited as u64, "USE by {u}, {k} on {x}");
        let permitted = told(picture, Permitted { u, k }, x);
        assert_eq!(
            permitted,
            answer.code == plain::DONE,
            "USE by {u}, {k} on {x}"
        );
        assert_eq!(permitted, answer.cited != NO_RULE, "USE by {u}, {k} on {x}");
        match answer.code {
            plain::DONE => self.done += 1,
            plain::NO_AUTHORITY => self.no_authority += 1,
            _ => self.otherwise += 1,
        }
    }

    /// Some of a sheet's members with some of its gear, and any numbers.
    fn compare_some(&mut self, picture: &[u8; PICTURE], rng: &mut Rng) {
        let (members, gear) = (of_sort(picture, MEMBER), of_sort(picture, GEAR));
        for _ in 0..300 {
            if !members.is_empty() && !gear.is_empty() {
                let (u, x) = (rng.pick(&members), rng.pick(&gear));
                self.compare(picture, [u, rng.below(8) as u8, x]);
            }
            self.compare(picture, [64, 8, 64].map(|span| any_number(rng, span)));
        }
    }

    fn assert_often(&self) {
        println!("{self:?}");
        let least = [self.done, self.no_authority, self.otherwise];
        assert!(least.iter().all(|&count| count >= 5000), "{self:?}");
    }
}

#[test]
fn a_use_cites_the_permitting_place_on_sheets_of_any_value() {
    let mut rng = Rng::new(4301);
    let mut used = Used::default();
    for _ in 0..600 {
        used.compare_some(&generate::picture(&mut rng), &mut rng);
    }
    used.assert_often();
}

#[test]
fn a_use_cites_the_permitting_place_on_lists() {
    let mut rng = Rng::new(4302);
    let mut used = Used::default();
    for picture in pictures_of_lists(4310..4350, 100) {
        used.compare_some(&picture, &mut rng);
    }
    used.assert_often();
}

/// "Who may send what", and Job 1 for WITHDRAW, by what the board tells about the sender. DISMISS
/// and WITHDRAW read the stored numbers.
fn has_authority(picture: &[u8; PICTURE], record: &[u8]) -> bool {
    let sheet = Sheet::from_picture(picture);
    let owns = |u, x| told(picture, Owned { u }, x);
    let manages = |u, x| told(picture, Managed { u }, x);
    let governs = |u, x| owns(u, x) || manages(u, x);
    let administers = |u, a, b| told(picture, Administered { u, a }, b);
    let appoints = |u, kind, a, b| match kind {
        ADMINISTRATOR => manages(u, a) && manages(u, b),
        _ => owns(u, a),
    };
    match *record {
        [8, 0, 1, 0, u, _, _, g] => governs(u, g),
        [7, 0, 2 | 3, 0, u, x, g] => governs(u, x) && governs(u, g),
        [10, 0, 4, 0, u, _, kind, _, a, b] => appoints(u, kind, a, b),
        [6, 0, 5, 0, u, place] => {
            let warrant = sheet.warrants[place as usize];
            appoints(u, warrant.kind, warrant.a, warrant.b)
        }
        [9, 0, 6, 0, u, _, users, t, _] => administers(u, users, t),
        [6, 0, 7, 0, u, place] => {
            let rule = sheet.rules[place as usize];
            administers(u, rule.u, rule.t) || owns(u, rule.t)
        }
        [7, 0, 8, 0, u, x, k] => told(picture, Permitted { u, k }, x),
        _ => unreachable!("checks 1 to 3 let it pass"),
    }
}

/// How often a request of each kind, 1 to 8, had authority, and how often it had none.
#[derive(Debug, Default)]
struct Authority([[usize; 2]; 8]);

impl Authority {
    /// A request that comes to check 9 is refused by it exactly if its sender lacks what is asked
    /// for.
    fn compare(&mut self, picture: &[u8; PICTURE], record: &[u8], code: u8) {
        if code != plain::DONE && code < plain::NO_AUTHORITY {
            return;
        }
        let has = has_authority(picture, record);
        assert_eq!(
            has,
            code != plain::NO_AUTHORITY,
            "{record:?} on {picture:?}"
        );
        self.0[record[2] as usize - 1][has as usize] += 1;
    }

    fn assert_often(&self) {
        println!("{self:?}");
        assert!(
            self.0.iter().flatten().all(|&count| count >= 100),
            "{self:?}"
        );
    }
}

#[test]
fn authority_goes_by_what_is_told_on_lists() {
    let mut authority = Authority::default();
    for seed in 4400..4460 {
        let mut rng = Rng::new(seed);
        let profile = Profile::ALL[seed as usize % Profile::ALL.len()];
        let mut picture = board::founding();
        for record in generate::stream(&mut rng, profile, 600, fast::judge) {
            let answer = board::judge(&picture, &record);
            authority.compare(&picture, &record, answer.code);
            picture = answer.picture;
        }
    }
    authority.assert_often();
}

#[test]
fn authority_goes_by_what_is_told_on_sheets_of_any_value() {
    let mut rng = Rng::new(4401);
    let mut authority = Authority::default();
    for _ in 0..8000 {
        let picture = generate::picture(&mut rng);
        let sheet = Sheet::from_picture(&picture);
        for _ in 0..5 {
            let record = generate::request(&mut rng, &sheet);
            let code = board::judge(&picture, &record).code;
            authority.compare(&picture, &record, code);
        }
    }
    authority.assert_often();
}
