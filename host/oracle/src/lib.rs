//! The original's strict reading and its writing of the three messages, as values. A reading that
//! ends in an error or a panic gives document 01's refusal number.

pub mod bit_trials;
mod panics;
mod questions;
pub mod records;
pub mod write_trials;
pub mod written;

pub use panics::{Panic, catch};

use tetra_core::BitBuffer;
use tetra_core::pdu_parse_error::PduParseErr;
use tetra_pdus::mm::pdus::d_attach_detach_group_identity::DAttachDetachGroupIdentity;
use tetra_pdus::mm::pdus::d_location_update_accept::DLocationUpdateAccept;
use tetra_pdus::mm::pdus::u_location_update_demand::ULocationUpdateDemand;

/// Document 01's number of a refusal.
pub type Refusal = u64;

/// The most octets that document 01 lets a call be lent.
pub const MAX_OCTETS: usize = 4096;

#[derive(Clone, Copy, Debug, PartialEq, Eq)]
pub enum Message {
    Demand = 2,
    Accept = 5,
    AttachDetach = 10,
}

impl Message {
    pub fn from_number(number: u64) -> Option<Self> {
        match number {
            2 => Some(Self::Demand),
            5 => Some(Self::Accept),
            10 => Some(Self::AttachDetach),
            _ => None,
        }
    }
}

/// The original's record of one message.
#[derive(Debug)]
pub enum Record {
    Demand(ULocationUpdateDemand),
    Accept(DLocationUpdateAccept),
    AttachDetach(DAttachDetachGroupIdentity),
}

impl Record {
    pub fn message(&self) -> Message {
        match self {
            Self::Demand(_) => Message::Demand,
            Self::Accept(_) => Message::Accept,
            Self::AttachDetach(_) => Message::AttachDetach,
        }
    }

    fn from_bitbuf(message: Message, buffer: &mut BitBuffer) -> Result<Self, PduParseErr> {
        match message {
            Message::Demand => ULocationUpdateDemand::from_bitbuf(buffer).map(Self::Demand),
            Message::Accept => DLocationUpdateAccept::from_bitbuf(buffer).map(Self::Accept),
            Message::AttachDetach => {
                DAttachDetachGroupIdentity::from_bitbuf(buffer).map(Self::AttachDetach)
            }
        }
    }

    fn to_bitbuf(&self, buffer: &mut BitBuffer) -> Result<(), PduParseErr> {
        match self {
            Self::Demand(record) => record.to_bitbuf(buffer),
            Self::Accept(record) => record.to_bitbuf(buffer),
            Self::AttachDetach(record) => record.to_bitbuf(buffer),
        }
    }
}

/// What came instead of an answer.
#[derive(Debug, PartialEq, Eq)]
pub enum Fault {
    /// Unknown message, too many octets, or no window of them: the original was not asked.
    OutsideLimits,
    Error(PduParseErr),
    Panic(Panic),
}

impl Fault {
    /// Document 01's number, if it knows one for this fault of a strict reading.
    pub fn read_refusal(&self) -> Option<Refusal> {
        match self {
            Self::OutsideLimits => Some(1),
            Self::Error(PduParseErr::BufferEnded { .. }) => Some(2),
            Self::Error(PduParseErr::InvalidPduType { .. }) => Some(3),
            Self::Error(PduParseErr::InvalidValue { .. }) => Some(4),
            Self::Error(PduParseErr::InconsistentLength { .. }) => Some(6),
            Self::Error(PduParseErr::InvalidTrailingMbitValue) => Some(7),
            Self::Error(_) => None,
            Self::Panic(panic) => match (panic.file.as_str(), panic.message.as_str()) {
                // A type 4 length below the 6 bits of its count.
                ("typed_pdu_fields.rs", "attempt to subtract with overflow") => Some(5),
                // Content over 64 bits that leaves the window.
                ("bitbuffer.rs", message) if message.starts_with("seek out of window") => Some(2),
                _ => None,
            },
        }
    }

    /// Document 01's number of the question that this fault of a write answers, if it can be told.
    pub fn write_refusal(&self) -> Option<Refusal> {
        match self {
            Self::OutsideLimits => Some(1),
            Self::Error(PduParseErr::Inconsistency { .. }) => Some(11),
            Self::Error(PduParseErr::InvalidValue { .. }) => Some(12),
            Self::Error(PduParseErr::FieldNotPresent { .. }) => Some(13),
            Self::Error(_) => None,
            Self::Panic(panic) => match panic.message.as_str() {
                "can only write up to 64 bits" => Some(8),
                // The length of a structure or of a list. A generic length over 2,047, which is 8, can't
                // be told from these.
                message if message.starts_with("value exceeds") && message.ends_with(" 11") => {
                    Some(15)
                }
                message if message.starts_with("value exceeds") => Some(8),
                message if message.starts_with("need one of") => Some(10),
                message if message.starts_with("vgssi should be") => Some(11),
                message if message.starts_with("not implemented") => Some(14),
                message if message.ends_with("would exceed buffer end") => Some(16),
                _ => None,
            },
        }
    }
}

#[derive(Debug)]
pub struct Read {
    pub record: Record,
    /// Bits consumed.
    pub consumed: usize,
}

/// The original's strict reading of the message with this type number in bits `first..end`.
///
/// Panics, naming the input, if the original does what document 01 knows no number for.
pub fn read(message: u64, octets: &[u8], first: usize, end: usize) -> Result<Read, Refusal> {
    answer(message, octets, first, end).map_err(|fault| {
        fault.read_refusal().unwrap_or_else(|| {
            panic!("{fault:?}: message {message}, octets {octets:02x?}, bits {first}..{end}")
        })
    })
}

/// The same, a refusal as the original gives it.
pub fn answer(message: u64, octets: &[u8], first: usize, end: usize) -> Result<Read, Fault> {
    let message = Message::from_number(message).ok_or(Fault::OutsideLimits)?;
    let mut buffer = window(octets, first, end).ok_or(Fault::OutsideLimits)?;
    let record = call(|| Record::from_bitbuf(message, &mut buffer))?;
    Ok(Read { record, consumed: buffer.get_pos() })
}

#[derive(Debug, PartialEq, Eq)]
pub struct Written {
    /// All the octets, as they are afterwards.
    pub octets: Vec<u8>,
    /// Bits written.
    pub bits: usize,
}

/// The original's writing of the record to the front of bits `first..end`.
///
/// A fault has no number here: the original doesn't meet faults in the order in which document 01
/// asks its questions, so answers compare only for records that pass them.
pub fn write(record: &Record, octets: &[u8], first: usize, end: usize) -> Result<Written, Fault> {
    let (octets, bits) = attempt(record, octets, first, end)?;
    Ok(Written { octets, bits: bits? })
}

/// The same, all the octets as they are afterwards, and the bits written or the fault that was met.
pub fn attempt(
    record: &Record,
    octets: &[u8],
    first: usize,
    end: usize,
) -> Result<(Vec<u8>, Result<usize, Fault>), Fault> {
    let mut buffer = window(octets, first, end).ok_or(Fault::OutsideLimits)?;
    let written = call(|| record.to_bitbuf(&mut buffer));
    let bits = buffer.get_pos();
    Ok((buffer.into_bytes(), written.map(|()| bits)))
}

/// Whether document 01's first question allows bits `first..end` of so many octets.
pub fn is_window(count: usize, first: usize, end: usize) -> bool {
    count <= MAX_OCTETS && first <= end && end <= 8 * count
}

/// A buffer over bits `first..end` of the octets, if document 01's first question allows it.
pub fn window(octets: &[u8], first: usize, end: usize) -> Option<BitBuffer> {
    if !is_window(octets.len(), first, end) {
        return None;
    }
    let mut buffer = BitBuffer::from_bytes(octets);
    // In this order, for the buffer asserts start <= position <= end at each step.
    buffer.set_raw_pos(first);
    buffer.set_raw_start(first);
    buffer.set_raw_end(end);
    Some(buffer)
}

fn call<T>(original: impl FnOnce() -> Result<T, PduParseErr>) -> Result<T, Fault> {
    panics::catch(original).map_err(Fault::Panic)?.map_err(Fault::Error)
}
