//! One reading of the library held against what it must answer, the flat buffer included.

use oracle::Fault;
use tetra_mm::{FLAT_MAX, Message, Reading};

use crate::form;
use crate::judge::{self, Answer, Departure, Judged};
use crate::window::Window;

/// The calls as the library has them.
#[derive(Clone, Copy)]
pub struct Library {
    pub read: Read,
    pub rewrite: Rewrite,
}

/// Message, reading, octets, first, end, flat buffer.
pub type Read = fn(u64, u64, &[u8], u64, u64, &mut [u8]) -> u64;

/// Message, octets, first, end, output, its first, its end.
pub type Rewrite = fn(u64, &[u8], u64, u64, &mut [u8], u64, u64) -> u64;

impl Library {
    pub const LINKED: Self = Self { read: tetra_mm::read_into, rewrite: tetra_mm::rewrite_into };
}

/// What a call is given besides the octets; any numbers.
#[derive(Clone, Copy, Debug, PartialEq, Eq)]
pub struct Call {
    pub message: u64,
    pub reading: u64,
    pub first: u64,
    pub end: u64,
}

/// Octets past the longest form.
const BEHIND: usize = 40;

/// What stands in a buffer before a call, so that every octet that is written shows.
fn pattern(at: usize) -> u8 {
    (at * 89 % 251 + 2) as u8
}

pub struct Checker {
    library: Read,
    before: Vec<u8>,
    buffer: Vec<u8>,
}

impl Checker {
    pub fn new(library: Read) -> Self {
        let before: Vec<u8> = (0..FLAT_MAX + BEHIND).map(pattern).collect();
        Self { library, buffer: before.clone(), before }
    }

    /// Both readings of a window that passes question 1, of which this is the original's answer: what was
    /// answered, or what differs.
    pub fn window(
        &mut self,
        message: Message,
        window: &Window,
        original: &Result<oracle::Read, Fault>,
    ) -> [(Judged, Result<(), String>); 2] {
        let strict = judge::strict_of(original);
        let (skipping, strict_refuses) = judge::skipping(message, window);
        let mut checks =
            [(strict, Reading::Strict), (skipping, Reading::Skipping)].map(|(judged, reading)| {
                let call = Call {
                    message: message as u64,
                    reading: reading as u64,
                    first: window.first as u64,
                    end: window.end as u64,
                };
                let check = self.call(call, &window.octets, &judged.answer);
                (judged, check)
            });
        if strict_refuses && checks[0].0.answer.is_ok() {
            let what =
                "a strict record, though an element is unlisted or the walk leaves the window";
            checks[0].1 = Err(what.to_owned());
        }
        checks
    }

    /// A call that question 1 refuses.
    pub fn limits(&mut self, call: Call, octets: &[u8]) -> (Judged, Result<(), String>) {
        let judged = Judged { answer: Err(1), departure: Some(Departure::Limits) };
        let check = self.call(call, octets, &judged.answer);
        (judged, check)
    }

    fn call(&mut self, call: Call, octets: &[u8], expected: &Answer) -> Result<(), String> {
        let lent = octets.to_vec();
        let full = self.before.len();
        match expected {
            Ok(read) => {
                let form = form::flat(read);
                let result = 64 * read.consumed as u64;
                self.answers(call, octets, full, result, &form)?;
                self.answers(call, octets, form.len(), result, &form)?;
                self.answers(call, octets, form.len() - 1, 16, &[])?;
                let message = match call.message {
                    2 => Message::Demand,
                    5 => Message::Accept,
                    _ => Message::AttachDetach,
                };
                let decoded = tetra_mm::decode(message, &form, read.consumed);
                if decoded != *read {
                    return Err(format!("the wrapper makes of the flat form {decoded:?}"));
                }
            }
            Err(number) => {
                self.answers(call, octets, full, u64::from(*number), &[])?;
                self.answers(call, octets, 0, u64::from(*number), &[])?;
            }
        }
        if octets == lent { Ok(()) } else { Err("the lent octets are changed".to_owned()) }
    }

    /// With a buffer of `size` octets: this result, this form at the front, everything else kept.
    fn answers(
        &mut self,
        call: Call,
        octets: &[u8],
        size: usize,
        result: u64,
        form: &[u8],
    ) -> Result<(), String> {
        self.buffer.copy_from_slice(&self.before);
        let got = self.call_library(call, octets, size);
        let (front, rest) = self.buffer.split_at(form.len());
        if got != result {
            Err(format!("with {size} octets of buffer: {}", self.shown(call, got)))
        } else if front != form {
            let at = front.iter().zip(form).position(|(a, b)| a != b).unwrap_or_default();
            Err(format!(
                "octet {at} of the flat form is {}, not {}: {}",
                front[at],
                form[at],
                self.shown(call, got)
            ))
        } else if rest != &self.before[form.len()..] {
            Err(format!("with {size} octets of buffer: octets are changed that must be kept"))
        } else {
            Ok(())
        }
    }

    fn call_library(&mut self, call: Call, octets: &[u8], size: usize) -> u64 {
        let Call { message, reading, first, end } = call;
        (self.library)(message, reading, octets, first, end, &mut self.buffer[..size])
    }

    /// The library's answer in words; the buffer is as it left it.
    fn shown(&self, call: Call, result: u64) -> String {
        let message = match (result % 64, call.message) {
            (0, 2) => Message::Demand,
            (0, 5) => Message::Accept,
            (0, 10) => Message::AttachDetach,
            _ => return format!("result {result}, which is refusal {}", result % 64),
        };
        let decode = || tetra_mm::decode(message, &self.buffer, (result / 64) as usize);
        match oracle::catch(decode) {
            Ok(read) => format!("{read:?}"),
            Err(_) => format!("result {result}, and no flat form in the buffer"),
        }
    }
}
