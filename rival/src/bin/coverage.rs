//! `coverage [rails]`: reads a script on standard input and prints how often each thing worth reaching happened, by the axis
//! and the writer or by runs on paper rails. Exits with 1 where something never did.

use std::io::{self, BufRead};
use std::process::ExitCode;

use rival::tally::Tally;

fn main() -> io::Result<ExitCode> {
    let mut input = io::stdin().lock();
    let mut tally = Tally::default();
    let mut raw = Vec::new();
    while input.read_until(b'\n', &mut raw)? > 0 {
        tally.line(&raw);
        raw.clear();
    }
    let rails = std::env::args().nth(1).is_some_and(|argument| argument == "rails");
    let table = if rails { tally.rails_table() } else { tally.table() };
    for (name, count) in &table {
        println!("{count:8}  {name}");
    }
    let missing: Vec<&str> = table.iter().filter(|(_, count)| *count == 0).map(|(name, _)| name.as_str()).collect();
    if missing.is_empty() {
        println!("missing: none");
        return Ok(ExitCode::SUCCESS);
    }
    println!("missing: {}", missing.join("; "));
    Ok(ExitCode::FAILURE)
}
