//! The sheet runner with the judge on sets: requests on standard input, the report on standard
//! output.

fn main() -> std::io::Result<()> {
    beside::report::run(beside::sets::judge)
}
