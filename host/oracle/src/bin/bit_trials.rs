//! Prints the expected output of the program bit_trials.

fn main() {
    print!("{}", oracle::bit_trials::lines());
}
