//! Prints records around each question that a writing call asks, and what the original makes of them.

fn main() {
    print!("{}", oracle::written::lines());
}
