//! The proved board's waiting line held against the two of this package.

use super::{all_same, hex};
use crate::board;
use crate::line::{self, Event, Queue};
use crate::sheet::{Sheet, PICTURE};

/// Whose line it is.
const NAMES: [&str; 3] = ["board", "plain", "fast"];

/// What all three leave of a record after an event on the sheet of a picture: the code and the
/// record; or what shows that they differ.
pub fn event(queue: &Queue, picture: &[u8; PICTURE], event: Event) -> Result<(u8, Queue), String> {
    let sheet = Sheet::from_picture(picture);
    let after = |happen: &dyn Fn(&mut Queue) -> u8| {
        let mut after = *queue;
        let code = happen(&mut after);
        (code, after)
    };
    let all = [
        after(&|queue| board::happen(queue, picture, event)),
        after(&|queue| line::happen(queue, &sheet, event)),
        after(&|queue| line::fast::happen(queue, picture, event)),
    ];
    if all_same(&all) {
        return Ok(all[0]);
    }
    let mut message = format!(
        "on the sheet {}\n{event:?} on the queue {}",
        hex(picture),
        hex(queue)
    );
    for (name, (code, after)) in NAMES.iter().zip(&all) {
        message += &format!("\n{name}: code {code}, after {}", hex(after));
    }
    Err(message)
}
