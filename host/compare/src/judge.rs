//! What the original says of a window: its strict reading, and the skipping one by way of the walk.

use oracle::Fault;
use tetra_mm::{Message, Read};

use crate::form;
use crate::walk::{End, walk};
use crate::window::Window;

/// A record with its counts, or the number of a refusal.
pub type Answer = Result<Read, u8>;

/// No answer of document 01's: the original did what the paper knows no number for.
pub const UNKNOWN: u8 = 0;

/// Where document 01 departs from the original.
#[derive(Clone, Copy, Debug, PartialEq, Eq)]
pub enum Departure {
    Limits,
    ShortType4,
    LongContent,
    // Of rewriting.
    OutputLimits,
    LongGeneric,
    NoAddress,
    Type4Generic,
    OtherFaultFirst,
    NoSpace,
    BitsLeft,
}

impl Departure {
    pub const ALL: [Self; 10] = [
        Self::Limits,
        Self::ShortType4,
        Self::LongContent,
        Self::OutputLimits,
        Self::LongGeneric,
        Self::NoAddress,
        Self::Type4Generic,
        Self::OtherFaultFirst,
        Self::NoSpace,
        Self::BitsLeft,
    ];

    pub fn name(self) -> &'static str {
        match self {
            Self::Limits => "question 1 (the original is not asked): 1",
            Self::ShortType4 => "a type 4 length below 6 (the original underflows): 5",
            Self::LongContent => {
                "content over 64 bits that leaves the window (the original panics): 2"
            }
            Self::OutputLimits => "question 1 of the output (the original is not asked): 1",
            Self::LongGeneric => {
                "a generic element over 64 bits rewritten (the original panics): 8"
            }
            Self::NoAddress => {
                "an uplink group without an address rewritten (the original panics): 11"
            }
            Self::Type4Generic => {
                "a generic type 4 element rewritten (the original panics, `unimplemented!`): 14"
            }
            Self::OtherFaultFirst => {
                "two faults of a record, of which the original meets the later question's: the earlier"
            }
            Self::NoSpace => {
                "rewritten in one bit less than the message has (the original panics): 16"
            }
            Self::BitsLeft => "a refused writing of which the original leaves bits: none",
        }
    }
}

#[derive(Clone, Debug, PartialEq, Eq)]
pub struct Judged {
    pub answer: Answer,
    pub departure: Option<Departure>,
}

impl Judged {
    fn refused(number: u8) -> Self {
        Self { answer: Err(number), departure: None }
    }
}

/// The original's own answer.
pub fn original(message: Message, window: &Window) -> Result<oracle::Read, Fault> {
    oracle::answer(message as u64, &window.octets, window.first, window.end)
}

pub fn strict(message: Message, window: &Window) -> Judged {
    strict_of(&original(message, window))
}

/// What the strict reading has to say where this is the original's answer.
pub fn strict_of(original: &Result<oracle::Read, Fault>) -> Judged {
    match original {
        Ok(read) => {
            let record = form::record(&read.record);
            let read = Read { record, consumed: read.consumed, skipped: 0 };
            Judged { answer: Ok(read), departure: None }
        }
        Err(fault) => {
            let number = read_refusal(fault);
            let departure = match (fault, number) {
                (Fault::OutsideLimits, 1) => Some(Departure::Limits),
                (Fault::Panic(_), 5) => Some(Departure::ShortType4),
                (Fault::Panic(_), 2) => Some(Departure::LongContent),
                _ => None,
            };
            Judged { answer: Err(number), departure }
        }
    }
}

/// The number that document 01 has for this fault of a reading.
pub fn read_refusal(fault: &Fault) -> u8 {
    fault.read_refusal().map_or(UNKNOWN, |number| number as u8)
}

fn strict_bits(message: Message, bits: &[bool]) -> Judged {
    strict(message, &Window::exact(bits))
}

/// What the skipping reading has to say, and whether the strict one has to refuse: where an unlisted
/// element stands, and where the walk leaves the window.
///
/// It gives a record exactly when the original does for the cut message (demand 3). Which refusal it
/// gives otherwise follows from the original too, for the questions come in reading order: the first
/// element that it can't read is read as the strict reading reads it where the unlisted elements before
/// it, and only those, are cut.
pub fn skipping(message: Message, window: &Window) -> (Judged, bool) {
    let bits = window.bits();
    let walk = walk(message, &bits);
    let count = walk.unlisted.len();
    let strict_refuses = count > 0 || !matches!(walk.end, End::Closed(_));

    // The window's bits up to `end`, the first `cut` unlisted elements left out.
    let without = |cut: usize, end: usize| {
        let mut kept = vec![];
        let mut at = 0;
        for element in &walk.unlisted[..cut] {
            kept.extend(&bits[at..element.start]);
            at = element.end;
        }
        kept.extend(&bits[at..end]);
        kept
    };
    let strict_without = |cut: usize| match cut {
        0 => strict(message, window),
        _ => strict_bits(message, &without(cut, bits.len())),
    };
    let refused_without = |cut: usize| match strict_without(cut) {
        Judged { answer: Ok(_), .. } => Judged::refused(UNKNOWN),
        refused => refused,
    };

    let (end, left_listed) = match walk.end {
        End::LeftHead => return (refused_without(0), strict_refuses),
        End::Closed(at) => {
            let judged = strict_without(count);
            if let Ok(mut read) = judged.answer {
                read.consumed += walk.unlisted.iter().map(ExactSizeIterator::len).sum::<usize>();
                read.skipped = count;
                return (Judged { answer: Ok(read), departure: None }, strict_refuses);
            }
            if count == 0 {
                return (judged, strict_refuses);
            }
            (at, None)
        }
        End::Left { start, listed } => (start, Some(listed)),
    };

    // Whether all reads well up to the next unlisted element, or to the walk's end: closed there by an
    // M-bit of 0.
    let reads_before_next = |cut: usize| {
        let mut closed = without(cut, walk.unlisted.get(cut).map_or(end, |next| next.start));
        closed.push(false);
        strict_bits(message, &closed).answer.is_ok()
    };
    let (mut low, mut high) = (0, count + 1);
    while low < high {
        let middle = (low + high) / 2;
        if reads_before_next(middle) {
            low = middle + 1;
        } else {
            high = middle;
        }
    }
    let judged = match left_listed {
        _ if low <= count => refused_without(low),
        // The element in which the walk leaves the window is the first that can't be read.
        Some(true) => refused_without(count),
        Some(false) => Judged::refused(2),
        // All reads well to a closing M-bit, but the original refused.
        None => Judged::refused(UNKNOWN),
    };
    (judged, strict_refuses)
}
