//! The windows that are compared.

use tetra_mm::Message;

use crate::check::Call;
use crate::draft::{
    Draft, Element, FORMS, Kind, LENGTHS, element_with_groups, kind, unlisted_identifier,
};
use crate::random::Random;
use crate::report::Report;
use crate::rewriting::{self, Outcome};
use crate::walk::{identifiers, type2_widths};
use crate::window::{Window, push};

pub const MESSAGES: [Message; 3] = [Message::Demand, Message::Accept, Message::AttachDetach];

/// All that doesn't depend on a count.
pub fn fixed(report: &mut Report, random: &mut Random) {
    exhaustive(report, random);
    combinations(report, random);
    lists(report, random);
    generics(report, random);
    every_bit(report, random);
    many_unlisted(report, random);
    limits(report, random);
    rewriting_limits(report, random);
}

fn compare(report: &mut Report, random: &mut Random, message: Message, bits: &[bool]) {
    report.window(message, &Window::placed(bits, random));
}

/// Every window of up to 16 bits, and every one of the message's type and 13 to 16 bits more.
fn exhaustive(report: &mut Report, random: &mut Random) {
    for message in MESSAGES {
        for width in 0..=16 {
            for value in 0..1 << width {
                let mut bits = vec![];
                push(&mut bits, value, width);
                compare(report, random, message, &bits);
            }
        }
        for width in 13..=16 {
            for value in 0..1 << width {
                let mut bits = vec![];
                push(&mut bits, message as u64, 4);
                push(&mut bits, value, width);
                compare(report, random, message, &bits);
            }
        }
    }
}

/// Every combination of optional elements, alone and with unlisted ones among them.
fn combinations(report: &mut Report, random: &mut Random) {
    for message in MESSAGES {
        for type2 in 0..1 << type2_widths(message).len() {
            for listed in 0..1 << identifiers(message).len() {
                for _ in 0..4 {
                    let draft = Draft::new(message, type2, random).listed(listed, random);
                    compare(report, random, message, &draft.bits());
                    let draft = draft.unlisted(1 + random.below(3), random);
                    compare(report, random, message, &draft.bits());
                }
            }
        }
    }
}

/// Lists of 0 to 63 groups, of each form and mixed, right and with faults.
fn lists(report: &mut Report, random: &mut Random) {
    for (message, identifier) in
        [(Message::Demand, 3), (Message::Accept, 5), (Message::AttachDetach, 7)]
    {
        for groups in 0..=63 {
            for form in (0..FORMS).map(Some).chain([None; 4]) {
                for faulty in [false, true] {
                    let mut draft = Draft::new(message, 0, random);
                    draft.elements.push(element_with_groups(
                        message, identifier, groups, form, faulty, random,
                    ));
                    compare(report, random, message, &draft.bits());
                }
            }
        }
    }
}

/// Generic and unlisted elements of each length of note, in windows that end around their last bit.
fn generics(report: &mut Report, random: &mut Random) {
    for message in MESSAGES {
        for identifier in 0..16 {
            let listed = identifiers(message).contains(&identifier);
            if listed && !matches!(kind(message, identifier), Kind::Type3 | Kind::Type4) {
                continue;
            }
            for length in LENGTHS {
                let mut draft = Draft::new(message, 0, random);
                draft.elements.push(Element::new(identifier, random.bits(length)));
                let bits = draft.bits();
                for short in [0, 1, 2, 3, 10, 64, 65, 66, 100] {
                    compare(report, random, message, &bits[..bits.len().saturating_sub(short)]);
                }
            }
        }
    }
}

/// Some messages cut off at every bit, and with every bit turned.
fn every_bit(report: &mut Report, random: &mut Random) {
    for message in MESSAGES {
        for _ in 0..60 {
            let unlisted = random.below(3);
            let mut bits = Draft::any(message, random).unlisted(unlisted, random).bits();
            if bits.len() > 1200 {
                continue;
            }
            for length in 0..bits.len() {
                compare(report, random, message, &bits[..length]);
            }
            for at in 0..bits.len() {
                bits[at] ^= true;
                compare(report, random, message, &bits);
                bits[at] ^= true;
            }
        }
    }
}

/// As many unlisted elements as a call can hold.
fn many_unlisted(report: &mut Report, random: &mut Random) {
    const MOST_BITS: usize = 8 * 4096;
    for message in MESSAGES {
        for count in [1, 2, 3, 10, 63, 64, 65, 255, 256, 257, 1000, 2045, 2046, 2047, 2048] {
            for fault in [false, true] {
                let mut draft = Draft::new(message, 0, random);
                let listed = random.pick(identifiers(message));
                draft.elements.push(element_with_groups(message, listed, 0, None, fault, random));
                for _ in 0..count {
                    let element = Element::new(unlisted_identifier(message, random), vec![]);
                    draft.elements.insert(random.below(draft.elements.len() + 1), element);
                }
                let mut bits = draft.bits();
                bits.truncate(MOST_BITS);
                report.window(message, &Window::exact(&bits));
            }
        }
        // The largest call that question 1 lets pass, and its last bit as the window.
        let mut octets = vec![0; 4096];
        octets[0] = (message as u8) << 4;
        report.window(message, &Window { octets: octets.clone(), first: 0, end: MOST_BITS });
        for first in [MOST_BITS - 8, MOST_BITS - 1, MOST_BITS] {
            report.window(message, &Window { octets: octets.clone(), first, end: MOST_BITS });
        }
    }
}

/// Counts of octets, and bits that are no window of them, or of more than a call may have: at the boundary
/// and far from it.
fn no_windows() -> Vec<(usize, u64, u64)> {
    let mut windows = vec![];
    for count in [4097, 4098, 4200] {
        windows.extend([(count, 0, 10), (count, 0, 0), (count, 0, 8 * count as u64)]);
    }
    for count in [0, 1, 2, 5, 4096] {
        let bits = 8 * count as u64;
        windows.extend(
            [(0, bits + 1), (bits, bits + 1), (bits + 1, bits + 1), (bits + 1, bits), (1, 0)]
                .map(|(first, end)| (count, first, end)),
        );
        for far in [1 << 16, 1 << 32, 1 << 61, (1 << 61) + 1, 1 << 63, u64::MAX - 7, u64::MAX] {
            windows.extend(
                [(0, far), (far, far), (far, 0), (far, bits), (far - 1, far)]
                    .map(|(first, end)| (count, first, end)),
            );
        }
    }
    windows
}

/// Numbers that are no message's, some of which have one's low bits.
fn no_messages() -> impl Iterator<Item = u64> {
    let above = |message| [1 << 8, 1 << 16, 1 << 32, 1 << 63].map(|above| message + above);
    let known = MESSAGES.map(|message| message as u64);
    (0..=17)
        .filter(move |message| !known.contains(message))
        .chain(known.into_iter().flat_map(above))
}

/// Calls that question 1 refuses, by each of its parts.
fn limits(report: &mut Report, random: &mut Random) {
    let octets: Vec<u8> = (0..4200).map(|_| random.next() as u8).collect();
    let mut call = |message, reading, count: usize, first, end| {
        report.limits(Call { message, reading, first, end }, &octets[..count]);
    };
    for reading in [0, 1] {
        for message in no_messages() {
            call(message, reading, 2, 0, 10);
        }
        for message in MESSAGES.map(|message| message as u64) {
            for (count, first, end) in no_windows() {
                call(message, reading, count, first, end);
            }
            // A number that is the reading's in its low bits only.
            for above in [1 << 8, 1 << 16, 1 << 32, 1 << 63] {
                call(message, reading + above, 2, 0, 10);
            }
            for other in [2, 3, 255, u64::MAX] {
                call(message, other, 2, 0, 10);
            }
        }
    }
}

/// Rewritings that question 1 refuses, of the input and of the output, and outputs that just pass it.
fn rewriting_limits(report: &mut Report, random: &mut Random) {
    let out: Vec<u8> = (0..4200).map(|_| random.next() as u8).collect();
    for message in no_messages() {
        let call = rewriting::Call { message, first: 0, end: 10, out_first: 3, out_end: 24 };
        report.rewriting_limits(call, &[0x26, 0x00], &out[..3]);
    }
    for (message, octets) in MESSAGES.into_iter().zip([[0x26, 0x00], [0x56, 0x00], [0xa6, 0x00]]) {
        let window = Window { octets: octets.to_vec(), first: 0, end: 16 };
        for (count, first, end) in no_windows() {
            let input = rewriting::Call::new(message, &window, 3, 24);
            let octets = &out[..count];
            report.rewriting_limits(rewriting::Call { first, end, ..input }, octets, &out[..3]);
            let output = rewriting::Call { out_first: first, out_end: end, ..input };
            report.rewriting_limits(output, &window.octets, &out[..count]);
            report.rewriting_limits(
                rewriting::Call { first, end, ..output },
                octets,
                &out[..count],
            );
        }
        let bits = match message {
            Message::Demand => 10,
            Message::Accept | Message::AttachDetach => 8,
        };
        let bits_written = Window { end: bits, ..window.clone() }.bits();
        let outcome = Outcome::Written(bits_written);
        for count in [0, 1, 2, 5, 4096] {
            let (before, last) = (&out[..count], 8 * count);
            for first in [0, last.saturating_sub(bits), last.saturating_sub(bits - 1), last] {
                let call = rewriting::Call::new(message, &window, first, last);
                let (result, after) = outcome.result(before, first, last);
                report.rewriting(call, &window.octets, before, result, &after);
            }
        }
    }
}

pub enum Drawn {
    Window(Message, Window),
    /// A call that question 1 refuses.
    Limits(Call, Vec<u8>),
}

/// Compares what `draw` gives.
pub fn drawn(report: &mut Report, random: &mut Random) {
    match draw(random) {
        Drawn::Window(message, window) => report.window(message, &window),
        Drawn::Limits(call, octets) => {
            report.limits(call, &octets);
            let Call { message, reading, first, end } = call;
            if reading <= 1 {
                let out: Vec<u8> = (0..random.below(8)).map(|_| random.next() as u8).collect();
                let (out_first, out_end) = (0, 8 * out.len() as u64);
                let call = rewriting::Call { message, first, end, out_first, out_end };
                report.rewriting_limits(call, &octets, &out);
            }
        }
    }
}

/// One window, or one call that question 1 refuses, drawn at random.
pub fn draw(random: &mut Random) -> Drawn {
    let message = random.pick(&MESSAGES);
    let mut bits = match random.below(12) {
        0 => {
            let length = random.below(160);
            let mut bits = vec![];
            push(&mut bits, message as u64, 4);
            bits.extend(random.bits(length));
            // The O-bit of a message without ciphering parameters.
            let o_bit = if message == Message::Demand { 9 } else { 7 };
            if let Some(bit) = bits.get_mut(o_bit) {
                *bit = true;
            }
            bits
        }
        1 => return draw_limits(random, message),
        2..6 => {
            let unlisted = random.below(4);
            Draft::any(message, random).unlisted(unlisted, random).bits()
        }
        _ => {
            let unlisted = random.pick(&[0, 0, 1, 2]);
            let mut draft = Draft::any(message, random).unlisted(unlisted, random);
            for _ in 0..random.pick(&[1, 1, 1, 2, 3]) {
                draft.fault(random);
            }
            draft.bits()
        }
    };
    match random.below(12) {
        0 => bits.truncate(random.below(bits.len() + 1)),
        1 => {
            for _ in 0..1 + random.below(4) {
                let at = random.below(bits.len());
                bits[at] ^= true;
            }
        }
        2 => {
            let length = random.below(40);
            bits.extend(random.bits(length));
        }
        _ => {}
    }
    Drawn::Window(message, Window::placed(&bits, random))
}

fn draw_limits(random: &mut Random, message: Message) -> Drawn {
    let Window { octets, first, end } = Window::placed(&Draft::any(message, random).bits(), random);
    let bits = 8 * octets.len() as u64;
    let (first, end) = (first as u64, end as u64);
    let reading = random.next() % 2;
    let mut call = Call { message: message as u64, reading, first, end };
    match random.below(5) {
        0 => call.message = random.pick(&[0, 1, 3, 4, 6, 7, 8, 9, 11, 12, 13, 14, 15, 1 << 32 | 2]),
        1 => call.reading = 2 + random.next() % (u64::MAX - 1),
        2 => call.first = end + 1 + random.next() % 64,
        3 => call.end = bits + 1 + random.next() % 64,
        _ => call.end = bits + 1 + random.next() % (u64::MAX - bits),
    }
    Drawn::Limits(call, octets)
}
