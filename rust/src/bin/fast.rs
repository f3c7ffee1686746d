//! The sheet runner with the fast judge: requests on standard input, the report on standard
//! output.

fn main() -> std::io::Result<()> {
    beside::report::run(beside::fast::judge)
}
