//! What was told in a test: the board's answers held to the plain ones, and counted.

use beside::board;
use beside::compare::hex;
use beside::plain::Holdings;
use beside::question::Question::{self, *};
use beside::sheet::{Sheet, NO_RULE, PICTURE};

/// A sheet of which the board and the plain holdings are asked.
pub struct Asked {
    picture: [u8; PICTURE],
    plain: Holdings,
}

impl Asked {
    pub fn of(picture: &[u8; PICTURE]) -> Asked {
        Asked {
            picture: *picture,
            plain: Holdings::of(Sheet::from_picture(picture)),
        }
    }

    /// The answer on which both agree.
    pub fn ask(&self, question: Question) -> u64 {
        let board = board::ask(&self.picture, question);
        let plain = self.plain.answer(question);
        let differ = || format!("{question:?}: board {board:#x}, plain {plain:#x}");
        assert!(board == plain, "{} on {}", differ(), hex(&self.picture));
        board
    }

    /// Are two objects under each other?
    fn has_a_circle(&self) -> bool {
        let each_other = |x, g| self.plain.under(x, g) && self.plain.under(g, x);
        (0..64).any(|g| (0..g).any(|x| each_other(x, g)))
    }
}

/// How many answers to a kind of question are nothing, one object, a few, and ten or more.
#[derive(Debug, Default)]
struct Sizes([usize; 4]);

impl Sizes {
    fn count(&mut self, set: u64) {
        let size = match set.count_ones() {
            0 => 0,
            1 => 1,
            2..=9 => 2,
            _ => 3,
        };
        self.0[size] += 1;
    }
}

/// How often each sort came and how large the sets were; how many places were told and how many of
/// them weren't 0, and how often none; and how many sheets have a circle of groups.
#[derive(Debug, Default)]
pub struct Told {
    asked: usize,
    sorts: [usize; 4],
    below: Sizes,
    owned: Sizes,
    managed: Sizes,
    administered: Sizes,
    permitted: Sizes,
    places: usize,
    later_places: usize,
    no_place: usize,
    circles: usize,
}

impl Told {
    /// Asks questions about the sheet of a picture, and counts the answers.
    pub fn on(&mut self, picture: &[u8; PICTURE]) -> impl FnMut(Question) + '_ {
        let sheet = Asked::of(picture);
        self.circles += sheet.has_a_circle() as usize;
        move |question| self.count(question, sheet.ask(question))
    }

    fn count(&mut self, question: Question, answer: u64) {
        self.asked += 1;
        match question {
            Sort { .. } => self.sorts[answer as usize] += 1,
            Below { .. } => self.below.count(answer),
            Owned { .. } => self.owned.count(answer),
            Managed { .. } => self.managed.count(answer),
            Administered { .. } => self.administered.count(answer),
            Permitted { .. } => self.permitted.count(answer),
            Permitting { .. } if answer == NO_RULE as u64 => self.no_place += 1,
            Permitting { .. } => {
                self.places += 1;
                self.later_places += (answer > 0) as usize;
            }
        }
    }

    /// How often a permitting place was told.
    pub fn permits(&self) -> usize {
        self.places
    }

    /// How often something was administered.
    pub fn pairs(&self) -> usize {
        self.administered.0[1..].iter().sum()
    }

    /// Each kind of question was answered in every way.
    pub fn assert_often(&self) {
        println!("{self:?}");
        let sets = [
            &self.below,
            &self.owned,
            &self.managed,
            &self.administered,
            &self.permitted,
        ];
        for Sizes(counts) in sets {
            assert!(counts.iter().all(|&count| count >= 30), "{self:?}");
        }
        assert!(self.sorts.iter().all(|&count| count >= 1000), "{self:?}");
        let first_places = self.places - self.later_places;
        assert!(self.later_places >= 5000 && first_places >= 500, "{self:?}");
        assert!(self.no_place >= 5000 && self.circles >= 100, "{self:?}");
    }
}
