//! Compares the library with the original: [COUNT] [SEED]. A window is read strictly and skipping, and
//! rewritten.

use std::process::ExitCode;

use compare::check::Library;
use compare::random::Random;
use compare::report::Report;
use compare::windows;

/// Windows drawn at random, besides the fixed ones.
const COUNT: u64 = 3_000_000;
const SEED: u64 = 300_392;

fn main() -> ExitCode {
    let mut numbers = std::env::args().skip(1).map(|argument| argument.parse::<u64>());
    let (Ok(count), Ok(seed), None) =
        (numbers.next().unwrap_or(Ok(COUNT)), numbers.next().unwrap_or(Ok(SEED)), numbers.next())
    else {
        eprintln!("usage: compare [COUNT] [SEED]");
        return ExitCode::from(2);
    };
    let mut report = Report::new(Library::LINKED);
    let mut random = Random::new(seed);
    windows::fixed(&mut report, &mut random);
    println!("{} fixed windows, and {count} drawn with seed {seed}", report.compared());
    for _ in 0..count {
        windows::drawn(&mut report, &mut random);
    }
    print!("{}", report.text());
    if report.differ() == 0 { ExitCode::SUCCESS } else { ExitCode::FAILURE }
}
