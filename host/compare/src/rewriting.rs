//! Rewriting: what the original says of a window that is read and written, and the library's calls held
//! against it, every octet of the output included.

use oracle::Fault;
use tetra_mm::Message;

use crate::check::Rewrite;
use crate::judge::{self, Departure, UNKNOWN};
use crate::random::Random;
use crate::window::Window;

/// What a rewriting comes to.
#[derive(Clone, Debug, PartialEq, Eq)]
pub enum Outcome {
    /// Refused by the reading, before the output is looked at.
    Unread(u8),
    /// Refused by a question about the record, which comes behind question 1 of the output.
    Unwritten(u8),
    /// The message's bits.
    Written(Vec<bool>),
}

impl Outcome {
    /// The result of a call with this output, and the output afterwards.
    pub fn result(&self, out: &[u8], first: usize, end: usize) -> (u64, Vec<u8>) {
        let number = match self {
            Self::Unread(number) => *number,
            _ if !oracle::is_window(out.len(), first, end) => 1,
            Self::Unwritten(number) => *number,
            Self::Written(bits) if end - first < bits.len() => 16,
            Self::Written(bits) => {
                let out = Window::laid(bits, first, out.to_vec()).octets;
                return (64 * bits.len() as u64, out);
            }
        };
        (number.into(), out.to_vec())
    }
}

#[derive(Clone, Debug, PartialEq, Eq)]
pub struct Judged {
    pub outcome: Outcome,
    /// Those of the writing.
    pub departures: Vec<Departure>,
}

/// The original reads and writes; which refusal it is where it doesn't write, document 01's questions say.
pub fn judge(original: &Result<oracle::Read, Fault>) -> Judged {
    let read = match original {
        Ok(read) => read,
        Err(fault) => {
            let outcome = Outcome::Unread(judge::read_refusal(fault));
            return Judged { outcome, departures: vec![] };
        }
    };
    // What is read is never written longer.
    let fresh = vec![0; read.consumed.div_ceil(8)];
    let attempt = |room| oracle::attempt(&read.record, &fresh, 0, room).expect("a window of them");
    let mut departures = vec![];
    let mut fault_met = |number: u8, octets: &[u8], fault: &Fault| {
        let departure = match (number, fault.write_refusal()) {
            (8, Some(8)) => Departure::LongGeneric,
            (11, Some(11)) => Departure::NoAddress,
            (14, Some(14)) => Departure::Type4Generic,
            (16, Some(16)) => Departure::NoSpace,
            (8, Some(11 | 14)) => Departure::OtherFaultFirst,
            _ => return false,
        };
        departures.push(departure);
        if octets != fresh {
            departures.push(Departure::BitsLeft);
        }
        true
    };
    let number = read.record.write_refusal().map(|number| number as u8);
    let outcome = match (number, attempt(read.consumed)) {
        (None, (octets, Ok(bits))) => match attempt(bits - 1) {
            (short, Err(fault)) if fault_met(16, &short, &fault) => {
                Outcome::Written(Window { octets, first: 0, end: bits }.bits())
            }
            _ => Outcome::Unwritten(UNKNOWN),
        },
        (Some(number), (octets, Err(fault))) if fault_met(number, &octets, &fault) => {
            Outcome::Unwritten(number)
        }
        _ => Outcome::Unwritten(UNKNOWN),
    };
    Judged { outcome, departures }
}

/// What a call is given besides the octets and the output; any numbers.
#[derive(Clone, Copy, Debug, PartialEq, Eq)]
pub struct Call {
    pub message: u64,
    pub first: u64,
    pub end: u64,
    pub out_first: u64,
    pub out_end: u64,
}

impl Call {
    /// A window that passes question 1, rewritten to these bits.
    pub fn new(message: Message, window: &Window, out_first: usize, out_end: usize) -> Self {
        Self {
            message: message as u64,
            first: window.first as u64,
            end: window.end as u64,
            out_first: out_first as u64,
            out_end: out_end as u64,
        }
    }
}

/// Where a rewriting goes: what stands around the message, whose length isn't known before.
#[derive(Clone, Copy, Debug, PartialEq, Eq)]
pub struct Output {
    /// The window's first bit.
    pub first: usize,
    /// Bits of the longer window behind the message.
    pub spare: usize,
    /// Octets behind the window.
    pub behind: usize,
    /// Of the octets that stand there before.
    pub seed: u64,
}

impl Output {
    pub fn drawn(random: &mut Random) -> Self {
        Self {
            first: random.below(40),
            spare: 1 + random.below(80),
            behind: random.below(4),
            seed: random.next(),
        }
    }

    /// The count of octets around a window of so many bits.
    fn count(&self, bits: usize) -> usize {
        (self.first + bits).div_ceil(8) + self.behind
    }

    fn ones(&self, bits: usize) -> Vec<u8> {
        vec![0xff; self.count(bits)]
    }

    fn any(&self, bits: usize) -> Vec<u8> {
        let mut random = Random::new(self.seed);
        (0..self.count(bits)).map(|_| random.next() as u8).collect()
    }

    /// Bits that are no window of so many octets.
    fn outside(&self, count: usize) -> (usize, usize) {
        let bits = 8 * count;
        match self.seed % 4 {
            0 => (self.first, bits + 1),
            1 => (bits + 1, bits + 1),
            2 => (self.first + 1, self.first),
            _ => (usize::MAX - self.first, usize::MAX),
        }
    }
}

/// Octets on both sides of the output that is lent.
const AROUND: usize = 9;

/// Bits that hold every message, and leave an output within the limits.
const ENOUGH: usize = 8 * 4000;

pub struct Checker {
    library: Rewrite,
}

impl Checker {
    pub fn new(library: Rewrite) -> Self {
        Self { library }
    }

    /// A window that passes question 1, rewritten in windows of several lengths.
    pub fn window(
        &self,
        message: Message,
        window: &Window,
        outcome: &Outcome,
        output: &Output,
    ) -> Result<(), String> {
        if let Outcome::Unread(UNKNOWN) | Outcome::Unwritten(UNKNOWN) = outcome {
            return Err("no answer is right".to_owned());
        }
        let first = output.first;
        let none = output.any(0);
        let outside = |out: Vec<u8>| (output.outside(out.len()), out);
        let outputs = match outcome {
            Outcome::Unread(_) => vec![((first, 8 * none.len()), none.clone()), outside(none)],
            Outcome::Unwritten(_) => {
                let enough = output.ones((window.end - window.first).min(ENOUGH));
                vec![
                    ((first, 8 * enough.len()), enough),
                    ((first, first), none.clone()),
                    outside(none),
                ]
            }
            Outcome::Written(bits) => {
                let end = first + bits.len();
                vec![
                    ((first, end), output.ones(bits.len())),
                    ((first, end + output.spare), output.any(bits.len() + output.spare)),
                    ((first, end - 1), output.any(bits.len())),
                    outside(none),
                ]
            }
        };
        for ((out_first, out_end), before) in outputs {
            let call = Call::new(message, window, out_first, out_end);
            let (result, after) = outcome.result(&before, out_first, out_end);
            self.answers(call, &window.octets, &before, result, &after)?;
        }
        Ok(())
    }

    /// With an output of these octets: this result, these octets afterwards, and all around them kept.
    pub fn answers(
        &self,
        call: Call,
        octets: &[u8],
        before: &[u8],
        result: u64,
        after: &[u8],
    ) -> Result<(), String> {
        let lent = octets.to_vec();
        let mut buffer = vec![0x5a; AROUND + before.len() + AROUND];
        let out = AROUND..AROUND + before.len();
        buffer[out.clone()].copy_from_slice(before);
        let Call { message, first, end, out_first, out_end } = call;
        let got = (self.library)(
            message,
            octets,
            first,
            end,
            &mut buffer[out.clone()],
            out_first,
            out_end,
        );
        let place = || format!("into bits {out_first}..{out_end} of {} octets", before.len());
        let wrong = buffer[out.clone()].iter().zip(after).position(|(a, b)| a != b);
        if got != result {
            Err(format!("{}: {}, not {}", place(), shown(got), shown(result)))
        } else if let Some(at) = wrong {
            let (got, want) = (buffer[AROUND + at], after[at]);
            Err(format!("{}: octet {at} is {got:02X} and not {want:02X}", place()))
        } else if buffer[..AROUND] != [0x5a; AROUND] || buffer[out.end..] != [0x5a; AROUND] {
            Err(format!("{}: octets outside are changed", place()))
        } else if octets != lent {
            Err("the lent octets are changed".to_owned())
        } else {
            Ok(())
        }
    }
}

fn shown(result: u64) -> String {
    match (result % 64, result / 64) {
        (0, bits) => format!("{bits} bits"),
        (number, 0) => format!("refusal {number}"),
        _ => format!("result {result}"),
    }
}
