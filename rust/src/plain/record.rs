//! A record's bytes and what they ask for.

use super::{refuse_if, MISFIT, TORN, UNKNOWN};
use Request::*;

/// A record's fields by the table "Request records"; the sender stands apart.
#[derive(Clone, Copy)]
pub enum Request {
    Make {
        place: u8,
        sort: u8,
        group: u8,
    },
    Put {
        object: u8,
        group: u8,
    },
    Take {
        object: u8,
        group: u8,
    },
    Appoint {
        place: u8,
        kind: u8,
        holder: u8,
        a: u8,
        b: u8,
    },
    Dismiss {
        place: u8,
    },
    Grant {
        place: u8,
        u: u8,
        t: u8,
        ops: u8,
    },
    Withdraw {
        place: u8,
    },
    Use {
        gear: u8,
        operation: u8,
    },
}

/// Checks 1 to 3, then the fields: the sender and the request.
pub fn read(record: &[u8]) -> Result<(u8, Request), u8> {
    // 1: "fewer than 4 bytes, or their number differs from the length field"
    refuse_if(record.len() < 4, TORN)?;
    let length = u16::from_le_bytes([record[0], record[1]]);
    refuse_if(record.len() != length as usize, TORN)?;
    // 2: "kind not 1 to 8"
    let kind = u16::from_le_bytes([record[2], record[3]]);
    refuse_if(!(1..=8).contains(&kind), UNKNOWN)?;
    // 3: "length isn't the kind's"
    let kinds_length = match kind {
        1 => 8,
        2 | 3 | 8 => 7,
        4 => 10,
        6 => 9,
        _ => 6,
    };
    refuse_if(length != kinds_length, MISFIT)?;

    let sender = record[4];
    let field = &record[5..];
    let request = match kind {
        1 => Make {
            place: field[0],
            sort: field[1],
            group: field[2],
        },
        2 => Put {
            object: field[0],
            group: field[1],
        },
        3 => Take {
            object: field[0],
            group: field[1],
        },
        4 => Appoint {
            place: field[0],
            kind: field[1],
            holder: field[2],
            a: field[3],
            b: field[4],
        },
        5 => Dismiss { place: field[0] },
        6 => Grant {
            place: field[0],
            u: field[1],
            t: field[2],
            ops: field[3],
        },
        7 => Withdraw { place: field[0] },
        _ => Use {
            gear: field[0],
            operation: field[1],
        },
    };
    Ok((sender, request))
}
