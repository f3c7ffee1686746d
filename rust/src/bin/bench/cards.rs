//! A sheet saved to a card and read back.

use crate::club::{club, Shape, MIDDLING};
use crate::timing::{self, Row, Times};
use beside::board::{self, CARD_ANSWER};
use beside::card::{read_fast, write_fast, LARGEST};
use beside::generate::cards::{sound, Fill};
use beside::generate::Rng;
use beside::sheet::{Sheet, PICTURE};
use std::hint::black_box;

/// Calls in one turn.
const CALLS: usize = 50;

/// The sheets of the table: the founding, a club, and two with many memberships, of which one
/// has the longest file.
fn sheets() -> [(&'static str, Sheet); 4] {
    [
        ("Founding", Sheet::founding()),
        ("Sparse", granted(club(Shape::Net, MIDDLING))),
        ("Dense", sound(&mut Rng::new(7), Fill::Dense)),
        ("Full", sound(&mut Rng::new(7), Fill::Full)),
    ]
}

/// The club with one operation in each rule that would have none.
fn granted(mut sheet: Sheet) -> Sheet {
    for rule in &mut sheet.rules {
        rule.ops |= (rule.mark && rule.ops == 0) as u8;
    }
    sheet
}

/// For each sheet: the writer and the reader.
pub fn measure() -> Vec<Row> {
    let row = |(name, sheet): (&str, Sheet)| {
        let picture = sheet.picture();
        let mut card = vec![0; LARGEST];
        let (code, length) = board::write_card(&picture, &mut card);
        assert_eq!(code, 0, "{name} is sound");
        card.truncate(length);
        Row {
            name: format!("{name} | {length}"),
            times: vec![write(&picture, &card), read(&picture, &card)],
        }
    };
    sheets().map(row).into()
}

/// Both from a picture to the lent bytes.
fn write(picture: &[u8; PICTURE], card: &[u8]) -> Times {
    let mut by_board = vec![0; LARGEST];
    let mut by_fast = vec![0; LARGEST];
    let result = write_fast(&Sheet::from_picture(picture), &mut by_fast);
    assert_eq!((result, &by_fast[..card.len()]), ((0, card.len()), card));
    let mut code = [0];
    timing::measure(
        CALLS,
        || {
            for _ in 0..CALLS {
                let lent = black_box(&mut by_board[..]);
                black_box(board::write_card_into(black_box(picture), lent, &mut code));
            }
        },
        || {},
        || {
            for _ in 0..CALLS {
                let sheet = Sheet::from_picture(black_box(picture));
                black_box(write_fast(&sheet, black_box(&mut by_fast[..])));
            }
        },
    )
}

/// Both from a card and the picture of a kept sheet to the picture of the sheet after.
fn read(picture: &[u8; PICTURE], card: &[u8]) -> Times {
    let kept = board::founding();
    assert_eq!(board::read_card(&kept, card), (0, *picture));
    let (code, sheet) = read_fast(&Sheet::founding(), card);
    assert_eq!((code, sheet.picture()), (0, *picture));
    let mut answer = [0; CARD_ANSWER];
    timing::measure(
        CALLS,
        || {
            for _ in 0..CALLS {
                let answer = black_box(&mut answer[..]);
                black_box(board::read_card_into(
                    black_box(&kept),
                    black_box(card),
                    answer,
                ));
            }
        },
        || {},
        || {
            for _ in 0..CALLS {
                let kept = Sheet::from_picture(black_box(&kept));
                let (code, sheet) = read_fast(&kept, black_box(card));
                black_box((code, sheet.picture()));
            }
        },
    )
}

pub fn print(rows: &[Row]) {
    println!("## Cards\n");
    println!(
        "One call that saves a policy to a card, from its picture to the lent bytes, and one that \
         reads it back to a picture. Beside the board a writer and a reader made for speed.\n"
    );
    println!("| Policy | Bytes | Write: board | Fast | Ratio | Read: board | Fast | Ratio |");
    println!("|---|{}", "--:|".repeat(7));
    for row in rows {
        print!("| {} ", row.name);
        for times in &row.times {
            let best = times.best();
            let ratio = best.board / best.fast;
            print!("| {:.0} | {:.0} | {ratio:.1} ", best.board, best.fast);
        }
        println!("|");
    }
    println!();
}
