//! Prints the expected output of the program write_trials.

fn main() {
    print!("{}", oracle::write_trials::lines());
}
