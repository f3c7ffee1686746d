//! Each kind by itself, on one policy.

use crate::club::{club, requests, Shape, Size, FULL, MIDDLING};
use crate::timing::{call, Row, Three, TORN};

/// The two policies that the kinds are measured on.
const SIZES: [Size; 2] = [MIDDLING, FULL];

/// For each policy and kind: a torn record, one that is done, one without authority.
pub fn measure() -> Vec<Row> {
    let mut rows = Vec::new();
    for size in SIZES {
        let sheet = club(Shape::Net, size);
        for request in requests(size) {
            rows.push(Row {
                name: request.name.to_string(),
                times: vec![
                    call(&sheet, &TORN, 1),
                    call(&sheet, &request.done, 0),
                    call(&sheet, &request.refused, 9),
                ],
            });
        }
    }
    rows
}

pub fn print(rows: &[Row]) {
    println!("## Each kind\n");
    println!("One call of the judge, without the time of the call with a torn record.");
    for (size, rows) in SIZES.iter().zip(rows.chunks(rows.len() / SIZES.len())) {
        let torn = rows[0].times[0].best();
        println!(
            "\nWith {} objects, {} appointments and {} rules in use; a torn record takes the board \
             {:.0}, the judge with sets {:.0}, the fast judge {:.0}:\n",
            size.objects, size.warrants, size.rules, torn.board, torn.sets, torn.fast
        );
        println!(
            "| Kind | Done: board | Sets | Ratio | Fast | Ratio | \
             No authority: board | Sets | Ratio | Fast | Ratio |"
        );
        println!("|---|{}", "--:|".repeat(10));
        for row in rows {
            let [torn, done, refused] = row.times[..] else {
                unreachable!("three records are measured")
            };
            let done = cells(done.best().minus(torn.best()));
            let refused = cells(refused.best().minus(torn.best()));
            println!("| {} | {done} | {refused} |", row.name);
        }
    }
    println!();
}

fn cells(three: Three) -> String {
    format!("{:.0} | {}", three.board, three.beside_board())
}
