//! The reader over the lent bytes and the text that the runner prints, for any judge.

use crate::sheet::{Answer, Sheet, NO_RULE};
use std::fmt::Write;

/// "The program reads standard input, at most 65,536 bytes."
pub const MOST_BYTES: usize = 65_536;

/// What the reader finds at its position.
#[derive(Clone, Copy, Debug, PartialEq, Eq)]
pub enum Next<'a> {
    Record(&'a [u8]),
    Torn,
    End,
}

/// "A reader over the lent bytes gives record after record."
pub struct Reader<'a> {
    bytes: &'a [u8],
    position: usize,
}

impl<'a> Reader<'a> {
    pub fn new(bytes: &'a [u8]) -> Reader<'a> {
        Reader { bytes, position: 0 }
    }

    /// "Fewer than 4 bytes left over, a length field below 4, or one running past the end, is
    /// torn; no later record is read. No bytes left is the plain end."
    pub fn next_record(&mut self) -> Next<'a> {
        let left = &self.bytes[self.position..];
        if left.is_empty() {
            return Next::End;
        }
        if left.len() < 4 {
            return Next::Torn;
        }
        let length = u16::from_le_bytes([left[0], left[1]]) as usize;
        if length < 4 || length > left.len() {
            return Next::Torn;
        }
        self.position += length;
        Next::Record(&left[..length])
    }
}

/// All that the runner prints for this input: the lines, or one line alone if it is too long.
pub fn report(input: &[u8], judge: impl Fn(&Sheet, &[u8]) -> Answer) -> String {
    if input.len() > MOST_BYTES {
        return "too long\n".to_string();
    }
    lines(input, judge)
}

/// The lines for an input of any length: "From a founding it prints per record: index from 0,
/// code, cited. A torn place prints its index, 1 and 255 as the last line. Empty input prints
/// nothing."
pub fn lines(input: &[u8], judge: impl Fn(&Sheet, &[u8]) -> Answer) -> String {
    let mut text = String::new();
    let mut reader = Reader::new(input);
    let mut sheet = Sheet::founding();
    let mut index = 0;
    loop {
        match reader.next_record() {
            Next::End => return text,
            Next::Torn => {
                add_line(&mut text, index, 1, NO_RULE);
                return text;
            }
            Next::Record(record) => {
                let answer = judge(&sheet, record);
                add_line(&mut text, index, answer.code, answer.cited);
                sheet = answer.sheet;
                index += 1;
            }
        }
    }
}

fn add_line(text: &mut String, index: usize, code: u8, cited: u8) {
    writeln!(text, "{index} {code} {cited}").expect("a String takes all text");
}

/// The same lines for a judge that writes the sheet after over the sheet before, into a buffer
/// as far as it has room; returns the number of bytes written.
pub fn lines_into(
    input: &[u8],
    out: &mut [u8],
    judge: impl Fn(&mut Sheet, &[u8]) -> (u8, u8),
) -> usize {
    let mut text = Buffer { out, written: 0 };
    let mut reader = Reader::new(input);
    let mut sheet = Sheet::founding();
    for index in 0.. {
        match reader.next_record() {
            Next::End => break,
            Next::Torn => {
                text.line(index, 1, NO_RULE);
                break;
            }
            Next::Record(record) => {
                let (code, cited) = judge(&mut sheet, record);
                text.line(index, code, cited);
            }
        }
    }
    text.written
}

/// Text in a lent buffer; what it has no room for is dropped.
struct Buffer<'a> {
    out: &'a mut [u8],
    written: usize,
}

impl Buffer<'_> {
    fn line(&mut self, index: usize, code: u8, cited: u8) {
        // Three numbers, the longest of 20 digits, each with a byte behind it.
        let mut line = [0; 29];
        let mut first = line.len();
        put_number(&mut line, &mut first, cited as usize, b'\n');
        put_number(&mut line, &mut first, code as usize, b' ');
        put_number(&mut line, &mut first, index, b' ');
        let text = &line[first..];
        let room = &mut self.out[self.written..];
        let fits = text.len().min(room.len());
        room[..fits].copy_from_slice(&text[..fits]);
        self.written += fits;
    }
}

/// Writes a number in decimal and one byte behind it in front of what starts at `first`.
fn put_number(line: &mut [u8; 29], first: &mut usize, number: usize, behind: u8) {
    *first -= 1;
    line[*first] = behind;
    let mut left = number;
    loop {
        *first -= 1;
        line[*first] = b'0' + (left % 10) as u8;
        left /= 10;
        if left == 0 {
            return;
        }
    }
}

/// The whole program: standard input in, report out.
pub fn run(judge: impl Fn(&Sheet, &[u8]) -> Answer) -> std::io::Result<()> {
    use std::io::{Read, Write};
    let mut input = Vec::new();
    std::io::stdin().lock().read_to_end(&mut input)?;
    let mut out = std::io::stdout().lock();
    out.write_all(report(&input, judge).as_bytes())?;
    out.flush()
}
