//! Events at one radio, each over and over on the same record.

use crate::club::{club, Shape, FULL, OUTSIDER, RADIO, USERS};
use crate::timing::{self, Row, Times};
use beside::board;
use beside::line::{self, fast, Event, Event::*, Queue};
use beside::sheet::{Sheet, MEMBER, PICTURE};
use std::hint::black_box;

/// Calls in one turn.
const CALLS: usize = 200;

/// Ten members, the first of whom holds the radio while the others wait or join.
fn users(sheet: &Sheet) -> [u8; 10] {
    let members: Vec<u8> = (8..64)
        .filter(|&x| sheet.sorts[x as usize] == MEMBER)
        .collect();
    members[..10].try_into().expect("ten members")
}

/// A nearly full policy, whose last rule alone gives operation 2 on the radio; and the same with
/// those who wait no longer among its users.
fn policies() -> [[u8; PICTURE]; 2] {
    let mut sheet = club(Shape::Net, FULL);
    for rule in &mut sheet.rules {
        rule.ops &= !(1 << line::TRANSMIT);
    }
    sheet.rules[FULL.rules - 1].ops |= 1 << line::TRANSMIT;
    let without = sheet;
    for user in users(&sheet) {
        sheet.members[USERS as usize] |= 1 << user;
    }
    [sheet.picture(), without.picture()]
}

/// Turns of five ticks, so many ticks left, and so many who wait.
fn held(users: &[u8; 10], left: u8, waiters: usize) -> Queue {
    let mut queue = line::start(RADIO, 5);
    queue[line::MARK_AT] = line::HELD;
    queue[line::HOLDER_AT] = users[0];
    queue[line::LEFT_AT] = left;
    queue[line::COUNT_AT] = waiters as u8;
    queue[line::WAITERS_AT..][..waiters].copy_from_slice(&users[1..1 + waiters]);
    queue
}

/// The tick that strikes eight, and the join behind four: policy, record and event of each.
pub fn deepest() -> [([u8; PICTURE], Queue, Event); 2] {
    let [picture, without] = policies();
    let users = users(&Sheet::from_picture(&picture));
    let join = Join { user: users[9] };
    [
        (without, held(&users, 1, 8), Tick),
        (picture, held(&users, 3, 4), join),
    ]
}

/// A row for each event, with the board and the fast line.
pub fn measure() -> Vec<Row> {
    let [picture, without] = policies();
    let users = users(&Sheet::from_picture(&picture));
    let [four, eight] = [4, 8].map(|waiters| held(&users, 3, waiters));
    let at_the_end = held(&users, 1, 8);
    let row = |name: &str, picture, queue, event, expected| Row {
        name: name.to_string(),
        times: vec![call(picture, queue, event, expected)],
    };
    vec![
        row(
            "join, held radio",
            &picture,
            &four,
            Join { user: users[9] },
            (0, 5),
        ),
        row(
            "join, refused with 9",
            &picture,
            &four,
            Join { user: OUTSIDER },
            (9, 4),
        ),
        row(
            "join, refused with 16",
            &picture,
            &eight,
            Join { user: users[9] },
            (16, 8),
        ),
        row(
            "leave, a waiter",
            &picture,
            &eight,
            Leave { user: users[4] },
            (0, 7),
        ),
        row("tick without a call", &picture, &eight, Tick, (0, 8)),
        row(
            "tick, the first is called",
            &picture,
            &at_the_end,
            Tick,
            (0, 7),
        ),
        row(
            "tick, eight are struck",
            &without,
            &at_the_end,
            Tick,
            (0, 0),
        ),
    ]
}

/// Both from a picture and a copy of the record to the record after. They have to give this code
/// and leave so many who wait.
fn call(picture: &[u8; PICTURE], queue: &Queue, event: Event, expected: (u8, u8)) -> Times {
    let (mut by_board, mut by_fast) = (*queue, *queue);
    let codes = [
        board::happen(&mut by_board, picture, event),
        fast::happen(&mut by_fast, picture, event),
    ];
    assert_eq!(codes, [expected.0; 2], "{event:?}");
    assert_eq!(by_board, by_fast, "{event:?}");
    assert_eq!(by_board[line::COUNT_AT], expected.1, "{event:?}");
    timing::measure(
        CALLS,
        || {
            for _ in 0..CALLS {
                let mut queue = black_box(*queue);
                black_box(board::happen(
                    &mut queue,
                    black_box(picture),
                    black_box(event),
                ));
                black_box(queue);
            }
        },
        || {},
        || {
            for _ in 0..CALLS {
                let mut queue = black_box(*queue);
                black_box(fast::happen(
                    &mut queue,
                    black_box(picture),
                    black_box(event),
                ));
                black_box(queue);
            }
        },
    )
}

pub fn print(rows: &[Row]) {
    println!("## Turns\n");
    println!(
        "One event at a radio, on a policy with {} objects, {} appointments and {} rules, the last \
         of which gives the permission. Beside the board a line made for speed, on the same bytes.\n",
        FULL.objects, FULL.warrants, FULL.rules
    );
    println!("| Event | Board | Fast | Ratio |");
    println!("|---|{}", "--:|".repeat(3));
    for row in rows {
        let best = row.times[0].best();
        let ratio = best.board / best.fast;
        println!(
            "| {} | {:.0} | {:.0} | {ratio:.1} |",
            row.name, best.board, best.fast
        );
    }
    println!();
}
