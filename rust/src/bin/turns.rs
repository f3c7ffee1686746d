//! The program for turns at one radio: requests and events on standard input, their lines on
//! standard output. With the word `sample` it writes the stored input instead:
//!
//!     cargo run --release --offline --bin turns -- sample > ../crates/queue_run/stdin
//!     cargo run --release --offline --bin turns < ../crates/queue_run/stdin > ../crates/queue_run/stdout

use beside::turns::{sample, text};
use std::io::{Read, Write};
use std::process::ExitCode;

fn main() -> ExitCode {
    let arguments: Vec<String> = std::env::args().skip(1).collect();
    let written = match &arguments[..] {
        [] => run(),
        [word] if word == "sample" => std::io::stdout().write_all(&sample::input()),
        _ => {
            eprintln!("usage: turns [sample]");
            return ExitCode::from(2);
        }
    };
    match written {
        Ok(()) => ExitCode::SUCCESS,
        Err(error) => {
            eprintln!("turns: {error}");
            ExitCode::FAILURE
        }
    }
}

fn run() -> std::io::Result<()> {
    let mut input = Vec::new();
    std::io::stdin().lock().read_to_end(&mut input)?;
    std::io::stdout().write_all(text(&input).as_bytes())
}
