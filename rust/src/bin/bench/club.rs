//! Clubs of a given size, and for each kind a record that is done there and one that is refused
//! for want of authority. The records lead the judges through all their checks: the senders
//! hold no more than they need, and gain nothing.

use beside::generate::Rng;
use beside::sheet::*;

/// How the objects hang together that a club has besides the first eight.
#[derive(Clone, Copy)]
pub enum Shape {
    /// Groups, members and gear in turn, each in two groups.
    Net,
    /// Groups, each in the one before, and a gear in the last.
    Chain,
}

/// How many objects, warrants and rules are in use.
#[derive(Clone, Copy)]
pub struct Size {
    pub objects: usize,
    pub warrants: usize,
    pub rules: usize,
}

/// About half of each table.
pub const MIDDLING: Size = Size {
    objects: 32,
    warrants: 16,
    rules: 32,
};

/// One place free in each table, so that it can be filled.
pub const FULL: Size = Size {
    objects: 63,
    warrants: 31,
    rules: 63,
};

// The first eight objects, which every club has.
const ROOT: u8 = 0;
const FOUNDER: u8 = 1;
const RUNNER: u8 = 2;
pub const USERS: u8 = 3;
const TARGETS: u8 = 4;
pub const RADIO: u8 = 5;
const LISTENER: u8 = 6;
pub const OUTSIDER: u8 = 7;

/// The operation that only the last rule has.
const LAST_OPERATION: u8 = 7;

/// A club. Its founder owns the root; the runner manages and administers it and is among the
/// users; the listener is too; the outsider manages the targets, by the last warrant.
pub fn club(shape: Shape, size: Size) -> Sheet {
    let mut rng = Rng::new(7);
    let mut sheet = Sheet::empty();
    let first = [GROUP, MEMBER, MEMBER, GROUP, GROUP, GEAR, MEMBER, MEMBER];
    sheet.sorts[..8].copy_from_slice(&first);
    for x in [FOUNDER, RUNNER, USERS, TARGETS, LISTENER, OUTSIDER] {
        put(&mut sheet, x, ROOT);
    }
    put(&mut sheet, RUNNER, USERS);
    put(&mut sheet, LISTENER, USERS);
    put(&mut sheet, RADIO, TARGETS);
    let groups = match shape {
        Shape::Net => add_net(&mut rng, &mut sheet, size.objects),
        Shape::Chain => add_chain(&mut sheet, size.objects),
    };
    add_warrants(&mut rng, &mut sheet, size.warrants, &groups);
    add_rules(&mut rng, &mut sheet, size.rules, &groups);
    sheet
}

fn put(sheet: &mut Sheet, x: u8, group: u8) {
    sheet.members[group as usize] |= 1 << x;
}

/// Adds objects under the targets; returns all groups there.
fn add_net(rng: &mut Rng, sheet: &mut Sheet, objects: usize) -> Vec<u8> {
    let mut groups = vec![TARGETS];
    for x in 8..objects as u8 {
        sheet.sorts[x as usize] = [GROUP, MEMBER, GEAR][x as usize % 3];
        for _ in 0..2 {
            put(sheet, x, rng.pick(&groups));
        }
        if sheet.sorts[x as usize] == GROUP {
            groups.push(x);
        }
    }
    groups
}

fn add_chain(sheet: &mut Sheet, objects: usize) -> Vec<u8> {
    let mut groups = vec![TARGETS];
    for x in 8..objects as u8 {
        put(sheet, x, groups[groups.len() - 1]);
        if (x as usize) < objects - 1 {
            sheet.sorts[x as usize] = GROUP;
            groups.push(x);
        } else {
            sheet.sorts[x as usize] = GEAR;
        }
    }
    groups
}

/// Those besides the first three and the last are of each kind in turn, over groups under the
/// targets, held by the runner and the listener.
fn add_warrants(rng: &mut Rng, sheet: &mut Sheet, warrants: usize, groups: &[u8]) {
    let warrant = |kind, holder, a, b| Warrant { kind, holder, a, b };
    sheet.warrants[0] = warrant(OWNER, FOUNDER, ROOT, 0);
    sheet.warrants[1] = warrant(MANAGER, RUNNER, ROOT, 0);
    sheet.warrants[2] = warrant(ADMINISTRATOR, RUNNER, ROOT, ROOT);
    for place in 3..warrants - 1 {
        let holder = rng.pick(&[RUNNER, LISTENER]);
        let (a, b) = (rng.pick(groups), rng.pick(groups));
        sheet.warrants[place] = match place % 3 {
            0 => warrant(OWNER, holder, a, 0),
            1 => warrant(MANAGER, holder, a, 0),
            _ => warrant(ADMINISTRATOR, holder, a, b),
        };
    }
    sheet.warrants[warrants - 1] = warrant(MANAGER, OUTSIDER, TARGETS, 0);
}

/// The first rule gives the users all operations but one on the targets, the last one gives
/// them that; those between give some operations on groups under the targets.
fn add_rules(rng: &mut Rng, sheet: &mut Sheet, rules: usize, groups: &[u8]) {
    let rule = |u, t, ops| Rule {
        mark: true,
        u,
        t,
        ops,
    };
    let last = 1 << LAST_OPERATION;
    for place in 0..rules - 1 {
        let u = rng.pick(&[USERS, USERS, TARGETS]);
        sheet.rules[place] = rule(u, rng.pick(groups), rng.byte() & !last);
    }
    sheet.rules[0] = rule(USERS, TARGETS, !last);
    sheet.rules[rules - 1] = rule(USERS, TARGETS, if rules == 1 { 255 } else { last });
}

/// The kinds, 1 to 8.
pub const NAMES: [&str; 8] = [
    "MAKE", "PUT", "TAKE", "APPOINT", "DISMISS", "GRANT", "WITHDRAW", "USE",
];

/// A record that is done, and the same from one who has no authority for it.
pub struct Request {
    pub name: &'static str,
    pub done: Vec<u8>,
    pub refused: Vec<u8>,
}

/// A request of each kind, and a WITHDRAW by an owner, for a club of this size.
pub fn requests(size: Size) -> [Request; 9] {
    let object = size.objects as u8;
    let warrant = size.warrants as u8;
    let rule = size.rules as u8;
    let request = |kind: u8, sender, fields: &[u8]| Request {
        name: NAMES[kind as usize - 1],
        done: record(kind, sender, fields),
        refused: record(kind, OUTSIDER, fields),
    };
    [
        request(1, RUNNER, &[object, MEMBER, USERS]),
        request(2, RUNNER, &[TARGETS, USERS]),
        request(3, RUNNER, &[LISTENER, ROOT]),
        request(
            4,
            RUNNER,
            &[warrant, ADMINISTRATOR, OUTSIDER, USERS, TARGETS],
        ),
        request(5, FOUNDER, &[warrant - 1]),
        request(6, RUNNER, &[rule, USERS, TARGETS, 6]),
        request(7, RUNNER, &[rule - 1]),
        request(8, LISTENER, &[RADIO, LAST_OPERATION]),
        Request {
            name: "WITHDRAW by an owner",
            ..request(7, FOUNDER, &[rule - 1])
        },
    ]
}

/// A record of this kind: the sender and the fields behind him.
pub fn record(kind: u8, sender: u8, fields: &[u8]) -> Vec<u8> {
    let mut record = vec![5 + fields.len() as u8, 0, kind, 0, sender];
    record.extend(fields);
    record
}
