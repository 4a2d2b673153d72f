//! The proved reader and rewriter, for Rust: `tetra_mm_read` of include/tetra_mm.h, with records of its
//! flat form, and `tetra_mm_rewrite`.
//!
//! ```
//! use tetra_mm::{Message, Reading, Record};
//!
//! // A demand with an SSI, and behind it an unlisted element 13 of 3 bits.
//! let octets = [0x26, 0x44, 0x00, 0x00, 0x05, 0xd0, 0x07, 0x40];
//! assert_eq!(tetra_mm::read(Message::Demand, Reading::Strict, &octets, 0, 64), Err(7));
//!
//! let read = tetra_mm::read(Message::Demand, Reading::Skipping, &octets, 0, 64).unwrap();
//! assert_eq!((read.consumed, read.skipped), (59, 1));
//! let Record::Demand(demand) = read.record else { unreachable!("the message asked for") };
//! assert_eq!((demand.location_update_type, demand.ssi), (3, Some(1)));
//! ```

mod flat;
mod records;

pub use records::*;

/// A message, by its 4-bit type.
#[derive(Clone, Copy, Debug, PartialEq, Eq)]
pub enum Message {
    Demand = 2,
    Accept = 5,
    AttachDetach = 10,
}

#[derive(Clone, Copy, Debug, PartialEq, Eq)]
pub enum Reading {
    Strict = 0,
    /// Passes over whole outer elements that the message's table lacks, and counts them.
    Skipping = 1,
}

#[derive(Clone, Debug, PartialEq, Eq)]
pub struct Read {
    pub record: Record,
    /// Bits consumed.
    pub consumed: usize,
    /// Elements skipped: 0 if strict.
    pub skipped: usize,
}

/// Octets of the longest flat form: an accept with 63 groups.
pub const FLAT_MAX: usize = 245 + 56 * 63;

/// Reads the message in bits `first..end`, bit 0 being the top bit of octet 0; or gives document 01's
/// number of the refusal.
pub fn read(
    message: Message,
    reading: Reading,
    octets: &[u8],
    first: usize,
    end: usize,
) -> Result<Read, u8> {
    let mut flat = [0; FLAT_MAX];
    let result =
        read_into(message as u64, reading as u64, octets, first as u64, end as u64, &mut flat);
    match (result % 64) as u8 {
        0 => Ok(decode(message, &flat, (result / 64) as usize)),
        refusal => Err(refusal),
    }
}

/// The call itself: the flat form comes to the front of `flat`, the result is 64 times the bits
/// consumed plus the refusal's number.
#[inline]
pub fn read_into(
    message: u64,
    reading: u64,
    octets: &[u8],
    first: u64,
    end: u64,
    flat: &mut [u8],
) -> u64 {
    unsafe extern "C" {
        fn tetra_mm_read(
            message: u64,
            reading: u64,
            octets: *const u8,
            octets_len: usize,
            first: u64,
            end: u64,
            flat: *mut u8,
            flat_len: usize,
        ) -> u64;
    }
    // SAFETY: both slices are whole, and a shared and an exclusive one don't overlap.
    unsafe {
        tetra_mm_read(
            message,
            reading,
            octets.as_ptr(),
            octets.len(),
            first,
            end,
            flat.as_mut_ptr(),
            flat.len(),
        )
    }
}

/// Reads the message strictly in bits `first..end` of the octets and writes its record to the front of
/// bits `out_first..out_end` of `out`, where every other bit is kept; gives the bits written, or document
/// 01's number of the refusal, which changes nothing.
///
/// ```
/// use tetra_mm::Message;
///
/// // A demand whose O-bit announces optional elements, of which there are none: written without it.
/// let mut out = [0xff; 3];
/// assert_eq!(tetra_mm::rewrite(Message::Demand, &[0x26, 0x40], 0, 16, &mut out, 0, 24), Ok(10));
/// assert_eq!(out, [0x26, 0x3f, 0xff]);
///
/// // It doesn't fit 9 bits.
/// let mut out = [0xff; 3];
/// assert_eq!(tetra_mm::rewrite(Message::Demand, &[0x26, 0x40], 0, 16, &mut out, 8, 17), Err(16));
/// assert_eq!(out, [0xff; 3]);
/// ```
pub fn rewrite(
    message: Message,
    octets: &[u8],
    first: usize,
    end: usize,
    out: &mut [u8],
    out_first: usize,
    out_end: usize,
) -> Result<usize, u8> {
    let (first, end) = (first as u64, end as u64);
    let (out_first, out_end) = (out_first as u64, out_end as u64);
    let result = rewrite_into(message as u64, octets, first, end, out, out_first, out_end);
    match (result % 64) as u8 {
        0 => Ok((result / 64) as usize),
        refusal => Err(refusal),
    }
}

/// The call itself: the result is 64 times the bits written plus the refusal's number.
#[inline]
pub fn rewrite_into(
    message: u64,
    octets: &[u8],
    first: u64,
    end: u64,
    out: &mut [u8],
    out_first: u64,
    out_end: u64,
) -> u64 {
    unsafe extern "C" {
        fn tetra_mm_rewrite(
            message: u64,
            octets: *const u8,
            octets_len: usize,
            first: u64,
            end: u64,
            out: *mut u8,
            out_len: usize,
            out_first: u64,
            out_end: u64,
        ) -> u64;
    }
    // SAFETY: both slices are whole, and a shared and an exclusive one don't overlap.
    unsafe {
        tetra_mm_rewrite(
            message,
            octets.as_ptr(),
            octets.len(),
            first,
            end,
            out.as_mut_ptr(),
            out.len(),
            out_first,
            out_end,
        )
    }
}

/// What a flat form says. Panics if it is not one of this message, as `read_into` leaves it.
pub fn decode(message: Message, flat: &[u8], consumed: usize) -> Read {
    let (skipped, record) = flat::decode(message, flat);
    Read { record, consumed, skipped }
}
