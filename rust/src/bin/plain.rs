//! The sheet runner with the plain judge: requests on standard input, the report on standard
//! output.

fn main() -> std::io::Result<()> {
    beside::report::run(beside::plain::judge)
}
