//! Time of one field, read and written: the original's `BitBuffer` against ours.
//!
//! Prints tab-separated lines: operation, place, width, and the nanoseconds per field of the
//! original and of ours, each the fastest of many rounds over one buffer.

use std::hint::black_box;
use std::time::Instant;

use tetra_core::BitBuffer;

unsafe extern "C" {
    /// The value, or a refusal's number.
    fn measure_read(
        octets: *const u8,
        octets_len: usize,
        at: usize,
        end: usize,
        width: usize,
    ) -> u64;

    /// 0, or a refusal's number.
    fn measure_write(
        octets: *mut u8,
        octets_len: usize,
        at: usize,
        end: usize,
        value: u64,
        width: usize,
    ) -> u64;
}

const OCTETS: usize = 4096;
const BITS: usize = 8 * OCTETS;
const ROUNDS: usize = 200;
/// The fewest fields in a round.
const FIELDS: usize = 1 << 14;
const WIDTHS: [usize; 5] = [1, 3, 11, 24, 64];

#[derive(Clone, Copy)]
enum Place {
    InARow,
    Aligned,
    NotAligned,
}

/// The fields of one round: `passes` times the places `first`, `first + step` and so on.
struct Fields {
    width: usize,
    first: usize,
    step: usize,
    count: usize,
    passes: usize,
    /// Whether the original's position must be set for each field.
    gaps: bool,
    /// What a write writes.
    value: u64,
}

impl Fields {
    fn new(place: Place, width: usize) -> Self {
        let octets_wide = 8 * width.div_ceil(8);
        let (first, step, gaps) = match place {
            Place::InARow => (0, width, false),
            Place::Aligned => (0, octets_wide, true),
            Place::NotAligned => (5, octets_wide, true),
        };
        let count = (BITS - first - width) / step + 1;
        Self {
            width,
            first,
            step,
            count,
            passes: FIELDS.div_ceil(count),
            gaps,
            value: 0xb5c3_96a5_5a69_3c4b >> (64 - width),
        }
    }
}

/// Gives the nanoseconds per field of the original and of ours.
type Comparison = fn(&[u8], &Fields) -> (f64, f64);

pub fn print() {
    let octets: Vec<u8> = (0..OCTETS).map(|i| (i * i + 37 * i) as u8).collect();
    for (operation, compare) in [("read", reads as Comparison), ("write", writes)] {
        for (name, place) in [
            ("in a row", Place::InARow),
            ("aligned", Place::Aligned),
            ("not aligned", Place::NotAligned),
        ] {
            for width in WIDTHS {
                let (original, ours) = compare(&octets, &Fields::new(place, width));
                println!("{operation}\t{name}\t{width}\t{original:.3}\t{ours:.3}");
            }
        }
    }
}

fn reads(octets: &[u8], fields: &Fields) -> (f64, f64) {
    let mut buffer = BitBuffer::from_bytes(octets);
    let original_read = if fields.gaps { original_read::<true> } else { original_read::<false> };
    fastest(fields, || original_read(&mut buffer, fields), || our_read(octets, fields))
}

fn writes(octets: &[u8], fields: &Fields) -> (f64, f64) {
    let mut buffer = BitBuffer::from_bytes(octets);
    let mut ours = octets.to_vec();
    let original_write = if fields.gaps { original_write::<true> } else { original_write::<false> };
    let times =
        fastest(fields, || original_write(&mut buffer, fields), || our_write(&mut ours, fields));
    assert!(buffer.into_bytes() == ours, "the two wrote different octets");
    times
}

fn fastest(
    fields: &Fields,
    mut original: impl FnMut() -> u64,
    mut ours: impl FnMut() -> u64,
) -> (f64, f64) {
    let mut best = (f64::MAX, f64::MAX);
    for _ in 0..ROUNDS {
        let (original_sum, original_time) = timed(fields, &mut original);
        let (our_sum, our_time) = timed(fields, &mut ours);
        assert_eq!(original_sum, our_sum, "the two gave different answers");
        best = (best.0.min(original_time), best.1.min(our_time));
    }
    best
}

fn timed(fields: &Fields, round: &mut impl FnMut() -> u64) -> (u64, f64) {
    let start = Instant::now();
    let sum = black_box(round());
    let elapsed = start.elapsed().as_nanos() as f64;
    (sum, elapsed / (fields.passes * fields.count) as f64)
}

// Each loop gives the sum of the answers.

#[inline(never)]
fn original_read<const GAPS: bool>(buffer: &mut BitBuffer, fields: &Fields) -> u64 {
    let mut sum = 0u64;
    for _ in 0..fields.passes {
        let mut at = fields.first;
        buffer.set_raw_pos(at);
        for _ in 0..fields.count {
            if GAPS {
                buffer.set_raw_pos(at);
                at += fields.step;
            }
            let value = buffer.read_bits(black_box(fields.width));
            sum = sum.wrapping_add(value.expect("inside the buffer"));
        }
    }
    sum
}

#[inline(never)]
fn our_read(octets: &[u8], fields: &Fields) -> u64 {
    let mut sum = 0u64;
    for _ in 0..fields.passes {
        let mut at = fields.first;
        for _ in 0..fields.count {
            // SAFETY: the pointer and the length are one slice's.
            let value = unsafe {
                measure_read(octets.as_ptr(), octets.len(), at, BITS, black_box(fields.width))
            };
            at += fields.step;
            sum = sum.wrapping_add(value);
        }
    }
    sum
}

#[inline(never)]
fn original_write<const GAPS: bool>(buffer: &mut BitBuffer, fields: &Fields) -> u64 {
    for _ in 0..fields.passes {
        let mut at = fields.first;
        buffer.set_raw_pos(at);
        for _ in 0..fields.count {
            if GAPS {
                buffer.set_raw_pos(at);
                at += fields.step;
            }
            buffer.write_bits(black_box(fields.value), black_box(fields.width));
        }
    }
    0
}

#[inline(never)]
fn our_write(octets: &mut [u8], fields: &Fields) -> u64 {
    let mut sum = 0u64;
    for _ in 0..fields.passes {
        let mut at = fields.first;
        for _ in 0..fields.count {
            // SAFETY: the pointer and the length are one slice's.
            let refusal = unsafe {
                measure_write(
                    octets.as_mut_ptr(),
                    octets.len(),
                    at,
                    BITS,
                    black_box(fields.value),
                    black_box(fields.width),
                )
            };
            at += fields.step;
            sum = sum.wrapping_add(refusal);
        }
    }
    sum
}
