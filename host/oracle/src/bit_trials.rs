//! One field written and one read at every width and offset.

use std::fmt::Write;

use crate::window;

const OCTETS: usize = 11;
const BITS: usize = 8 * OCTETS;

/// What the program bit_trials prints: for each offset and width a line with the two in decimal,
/// the octets after the write, and the value of the field that is read 3 bits further on.
pub fn lines() -> String {
    let mut lines = String::new();
    for offset in 0..16 {
        for width in 0..=64 {
            let (octets, value) = trial(offset, width);
            write!(lines, "{offset} {width} ").expect("a string takes all");
            for octet in octets {
                write!(lines, "{octet:02x}").expect("a string takes all");
            }
            writeln!(lines, " {value:016x}").expect("a string takes all");
        }
    }
    lines
}

fn trial(offset: usize, width: usize) -> (Vec<u8>, u64) {
    let before: [u8; OCTETS] =
        std::array::from_fn(|i| ((offset * 7 + width * 3 + i * 29) % 256) as u8);
    let value = low_bits(stir((offset * 65 + width + 1) as u64), width);

    let mut writer = window(&before, offset, BITS).expect("inside the octets");
    writer.write_bits(value, width);
    let after = writer.into_bytes();

    let mut reader = window(&after, offset + 3, BITS).expect("inside the octets");
    let value = reader.read_bits(width).expect("15 + 3 + 64 <= 88");
    (after, value)
}

fn low_bits(value: u64, width: usize) -> u64 {
    if width == 64 { value } else { value & ((1 << width) - 1) }
}

/// Spreads a small number over 64 bits.
fn stir(seed: u64) -> u64 {
    let a = seed ^ (seed << 13);
    let b = a ^ (a >> 7);
    let c = b ^ (b << 17);
    let d = c ^ (c << 41);
    d ^ (d >> 9)
}
