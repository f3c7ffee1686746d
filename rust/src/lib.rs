//! The sharing board, written a second time from documents 01 and 02 alone, and held against
//! the proved board byte for byte. Three judges: `plain` follows the text sentence by sentence;
//! `sets` is made for speed on 64-bit sets, and works its closure anew for each record; `fast`
//! works no closure, but searches with wide registers for just what a record needs. `card` saves
//! a sheet to a card and reads it back, plainly and for speed. `line` is the waiting line at one
//! radio, plainly and for speed, and `turns` the text of its program. `question` has what can be
//! asked of a sheet, which `plain` answers too. `board` is the proved board, and `program` runs its
//! programs.

pub mod board;
pub mod card;
pub mod compare;
pub mod fast;
pub mod generate;
pub mod line;
pub mod list;
pub mod plain;
pub mod program;
pub mod question;
pub mod report;
pub mod sets;
pub mod sheet;
pub mod tally;
pub mod turns;
mod wide;
mod words;
