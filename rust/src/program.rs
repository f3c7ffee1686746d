//! The proved programs, run as they are.

use crate::report::MOST_BYTES;
use std::io::Write;
use std::path::Path;
use std::process::{Command, Stdio};

/// What the program of this name prints for an input; it ends with status 0 and no error output.
pub fn run(name: &str, input: &[u8]) -> String {
    let folder = Path::new(env!("CARGO_MANIFEST_DIR")).join("../target/bin");
    let mut program = Command::new(folder.join(name))
        .stdin(Stdio::piped())
        .stdout(Stdio::piped())
        .stderr(Stdio::piped())
        .spawn()
        .expect("the program starts");
    // It prints nothing before it has read all that it reads, so this can't hang. It need not
    // read what is past its limit.
    let mut stdin = program.stdin.take().expect("a pipe");
    let sent = stdin.write_all(input);
    assert!(sent.is_ok() || input.len() > MOST_BYTES);
    drop(stdin);
    let output = program.wait_with_output().expect("the program ends");
    assert!(output.status.success());
    assert!(output.stderr.is_empty());
    String::from_utf8(output.stdout).expect("text")
}
