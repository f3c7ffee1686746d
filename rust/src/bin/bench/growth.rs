//! How the cost grows with what is in use.

use crate::club::{club, requests, Shape, Size, MIDDLING};
use crate::timing::{call, Row, TORN};

/// The kinds of the table, by their places in `requests`: USE, PUT, GRANT, DISMISS.
const KINDS: [usize; 4] = [7, 1, 5, 4];

/// For each size: a torn record, and one of each of the kinds that is done.
pub fn measure() -> Vec<Row> {
    let mut rows = Vec::new();
    for objects in [8, 16, 32, 64] {
        let size = Size {
            objects,
            ..MIDDLING
        };
        rows.push(row(format!("objects: {objects}"), Shape::Net, size));
    }
    for objects in [16, 32, 64] {
        let size = Size {
            objects,
            ..MIDDLING
        };
        rows.push(row(format!("chain: {objects}"), Shape::Chain, size));
    }
    for warrants in [4, 8, 16, 32] {
        let size = Size {
            warrants,
            ..MIDDLING
        };
        rows.push(row(format!("appointments: {warrants}"), Shape::Net, size));
    }
    for rules in [1, 8, 16, 32, 63] {
        let size = Size { rules, ..MIDDLING };
        rows.push(row(format!("rules: {rules}"), Shape::Net, size));
    }
    rows
}

fn row(name: String, shape: Shape, size: Size) -> Row {
    let sheet = club(shape, size);
    let requests = requests(size);
    let mut times = vec![call(&sheet, &TORN, 1)];
    times.extend(KINDS.map(|kind| call(&sheet, &requests[kind].done, 0)));
    Row { name, times }
}

pub fn print(rows: &[Row]) {
    println!("## Growth\n");
    println!(
        "A request that is done, board / fast, without the time of a torn record. What a row \
         doesn't name is {} objects, {} appointments, {} rules.\n",
        MIDDLING.objects, MIDDLING.warrants, MIDDLING.rules
    );
    println!("| In use | USE | PUT | GRANT | DISMISS |");
    println!("|---|--:|--:|--:|--:|");
    for row in rows {
        row.print_net();
    }
    println!();
}
