//! The proved board held against the two writers and the two readers of cards of this package.

use super::{all_same, hex};
use crate::sheet::{Sheet, PICTURE};
use crate::{board, card};

/// Who writes and reads.
const NAMES: [&str; 3] = ["board", "plain", "fast"];

/// How many bytes behind a lent buffer are watched.
const BEHIND: usize = 64;

/// What a writer left: the code, the length that it returned, and the lent bytes with those
/// behind them.
#[derive(PartialEq, Eq)]
struct Written {
    code: u8,
    length: usize,
    bytes: Vec<u8>,
}

impl Written {
    /// Lends a writer so many bytes.
    fn by(room: usize, write: impl Fn(&mut [u8]) -> (u8, usize)) -> Written {
        let mut bytes = pattern(room + BEHIND);
        let (code, length) = write(&mut bytes[..room]);
        Written {
            code,
            length,
            bytes,
        }
    }

    /// The file. Every byte past it is as it was lent, and so is every byte after a refusal.
    fn file(&self, room: usize) -> Result<&[u8], String> {
        let kept = pattern(self.bytes.len());
        if self.length > room || self.bytes[self.length..] != kept[self.length..] {
            let length = self.length;
            return Err(format!("a byte past the {length} of the file has changed"));
        }
        if self.code != 0 && self.length != 0 {
            return Err(format!("code {} and a file", self.code));
        }
        Ok(&self.bytes[..self.length])
    }
}

/// Bytes that differ from their neighbours, and from those 256 further on.
pub fn pattern(length: usize) -> Vec<u8> {
    (0..length)
        .map(|at| (at * 37 + at / 256 + 165) as u8)
        .collect()
}

/// The code and the file of all three for the sheet of a picture, with so many bytes lent; or
/// what shows that they differ, or have written where they must not.
pub fn write(picture: &[u8; PICTURE], room: usize) -> Result<(u8, Vec<u8>), String> {
    let sheet = Sheet::from_picture(picture);
    let all = [
        Written::by(room, |lent| board::write_card(picture, lent)),
        Written::by(room, |lent| card::write(&sheet, lent)),
        Written::by(room, |lent| card::write_fast(&sheet, lent)),
    ];
    let place = || format!("on the sheet {}\nwith {room} bytes lent", hex(picture));
    if !all_same(&all) {
        let mut message = place();
        for (name, one) in NAMES.iter().zip(&all) {
            let bytes = &one.bytes[..one.length.min(one.bytes.len())];
            message += &format!(
                "\n{name}: code {}, {} bytes: {}",
                one.code,
                one.length,
                hex(bytes)
            );
        }
        return Err(message);
    }
    let [board, ..] = all;
    match board.file(room) {
        Ok(file) => Ok((board.code, file.to_vec())),
        Err(wrong) => Err(format!("{}\n{wrong}", place())),
    }
}

/// The code and the picture of the sheet after of all three for a card, with this sheet kept; or
/// what shows that they differ.
pub fn read(kept: &[u8; PICTURE], bytes: &[u8]) -> Result<(u8, [u8; PICTURE]), String> {
    let sheet = Sheet::from_picture(kept);
    let pictured = |(code, sheet): (u8, Sheet)| (code, sheet.picture());
    let all = [
        board::read_card(kept, bytes),
        pictured(card::read(&sheet, bytes)),
        pictured(card::read_fast(&sheet, bytes)),
    ];
    if all_same(&all) {
        return Ok(all[0]);
    }
    let mut message = format!("kept {}\ncard {}", hex(kept), hex(bytes));
    for (name, (code, picture)) in NAMES.iter().zip(&all) {
        message += &format!("\n{name}: code {code}, after {}", hex(picture));
    }
    Err(message)
}
