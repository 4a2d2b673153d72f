//! Rewriters that are wrong in one point.

use compare::check::{Library, Rewrite};
use compare::judge;
use compare::random::Random;
use compare::rewriting::{self, Checker, Output};
use compare::window::{Window, push, shrink};
use oracle::Record;
use tetra_mm::{Message, rewrite_into};

use crate::differs;

/// Turns the bit, if it is one of the octets'.
fn turn(octets: &mut [u8], bit: u64) {
    if let Some(octet) = octets.get_mut((bit / 8) as usize) {
        *octet ^= 0x80 >> (bit % 8);
    }
}

/// A call that the right rewriter has made.
struct Made<'a> {
    message: u64,
    octets: &'a [u8],
    first: u64,
    end: u64,
    /// As it is now, and as it was before.
    out: &'a mut [u8],
    before: Vec<u8>,
    out_first: u64,
    out_end: u64,
    result: u64,
}

impl Made<'_> {
    /// The bit behind the last one written, if there is a record.
    fn written(&self) -> Option<u64> {
        match (self.result / 64, self.result % 64) {
            (bits, 0) => Some(self.out_first + bits),
            _ => None,
        }
    }

    fn read(&self) -> Result<oracle::Read, u64> {
        oracle::read(self.message, self.octets, self.first as usize, self.end as usize)
    }

    fn restore(&mut self) {
        self.out.copy_from_slice(&self.before);
    }
}

/// A rewriter that does as the right one, and then something else.
macro_rules! wrong {
    ($name:ident, $change:expr) => {
        fn $name(
            message: u64,
            octets: &[u8],
            first: u64,
            end: u64,
            out: &mut [u8],
            out_first: u64,
            out_end: u64,
        ) -> u64 {
            let before = out.to_vec();
            let result = rewrite_into(message, octets, first, end, out, out_first, out_end);
            let change: fn(Made) -> u64 = $change;
            change(Made { message, octets, first, end, out, before, out_first, out_end, result })
        }
    };
}

// Bits beside the message.
wrong!(bit_before, |made| {
    if made.written().is_some() && made.out_first > 0 {
        turn(made.out, made.out_first - 1);
    }
    made.result
});
wrong!(bit_behind, |made| {
    if let Some(end) = made.written() {
        turn(made.out, end);
    }
    made.result
});
wrong!(last_octet_cleared, |made| {
    if let Some(end) = made.written().filter(|end| end % 8 != 0) {
        made.out[(end / 8) as usize] &= !(0xff >> (end % 8));
    }
    made.result
});

// The message's own bits.
wrong!(last_bit, |made| {
    if let Some(end) = made.written() {
        turn(made.out, end - 1);
    }
    made.result
});
wrong!(nothing_written, |mut made| {
    made.restore();
    made.result
});
wrong!(as_it_was_read, |mut made| {
    if made.written().is_some() {
        let first = made.first as usize;
        let end = first + (made.result / 64) as usize;
        let bits = Window { octets: made.octets.to_vec(), first, end }.bits();
        made.restore();
        let written = Window::laid(&bits, made.out_first as usize, made.before);
        made.out.copy_from_slice(&written.octets);
    }
    made.result
});
wrong!(addresses_swapped, |made| {
    if let (Some(end), Ok(Record::AttachDetach(mut record))) =
        (made.written(), made.read().map(|read| read.record))
    {
        for group in record.group_identity_downlink.iter_mut().flatten() {
            if group.address_extension.is_some() {
                std::mem::swap(&mut group.gssi, &mut group.address_extension);
            }
        }
        let record = Record::AttachDetach(record);
        let written = oracle::write(&record, made.out, made.out_first as usize, end as usize);
        made.out.copy_from_slice(&written.expect("as long as before").octets);
    }
    made.result
});

// The result.
wrong!(one_bit_short, |made| match made.written() {
    Some(_) => made.result - 64,
    None => made.result,
});
wrong!(bits_with_a_refusal, |made| if made.result == 16 { 64 + 16 } else { made.result });
wrong!(no_space_with_enough, |mut made| {
    if made.written() == Some(made.out_end) {
        made.restore();
        return 16;
    }
    made.result
});

// Refused, and yet written.
wrong!(unread_and_written, |made| {
    if made.result == 7 {
        turn(made.out, made.out_first);
    }
    made.result
});
wrong!(unwritten_and_written, |made| {
    if made.result == 8 {
        turn(made.out, made.out_first);
    }
    made.result
});
wrong!(no_space_and_written, |made| {
    if made.result == 16 {
        turn(made.out, made.out_first);
    }
    made.result
});

// Questions that are asked in another order, or not at all.
wrong!(space_before_the_record, |made| match made.result {
    8 | 11 | 14 if made.out_first == made.out_end => 16,
    result => result,
});
wrong!(output_before_the_reading, |made| match made.result {
    2..=7 if made.out_first > made.out_end || made.out_end > 8 * made.out.len() as u64 => 1,
    result => result,
});
wrong!(record_before_the_output, |made| match made.read() {
    Ok(read) if made.result == 1 => read.record.write_refusal().unwrap_or(1),
    _ => made.result,
});
wrong!(type4_before_the_widths, |made| match made.read().map(|read| read.record) {
    Ok(Record::Accept(record)) if made.result == 8 && record.new_registered_area.is_some() => 14,
    _ => made.result,
});
wrong!(no_question_1_of_the_output, |made| {
    let Made { message, octets, first, end, out, out_first, result, .. } = made;
    let least = made.out_end.min(8 * out.len() as u64);
    if result == 1 && least < made.out_end && out_first <= least {
        return rewrite_into(message, octets, first, end, out, out_first, least);
    }
    result
});

#[test]
fn wrong_rewriters_differ() {
    for (name, rewrite) in [
        ("bit_before", bit_before as Rewrite),
        ("bit_behind", bit_behind),
        ("last_bit", last_bit),
        ("last_octet_cleared", last_octet_cleared),
        ("one_bit_short", one_bit_short),
        ("bits_with_a_refusal", bits_with_a_refusal),
        ("nothing_written", nothing_written),
        ("no_space_with_enough", no_space_with_enough),
        ("unread_and_written", unread_and_written),
        ("unwritten_and_written", unwritten_and_written),
        ("no_space_and_written", no_space_and_written),
        ("space_before_the_record", space_before_the_record),
        ("output_before_the_reading", output_before_the_reading),
        ("record_before_the_output", record_before_the_output),
        ("type4_before_the_widths", type4_before_the_widths),
        ("no_question_1_of_the_output", no_question_1_of_the_output),
        ("addresses_swapped", addresses_swapped),
        ("as_it_was_read", as_it_was_read),
    ] {
        assert!(differs(Library { rewrite, ..Library::LINKED }), "{name}");
    }
}

#[test]
fn a_difference_is_shrunk() {
    // Swapped addresses show in no attach/detach of fewer than 87 bits.
    let mut bits = vec![];
    for (value, width) in [
        (10, 4),
        (0b0111, 4),
        (0b11111, 5),
        (5, 11),
        (0b10101, 5),
        (0b10111, 5),
        (62, 11),
        (1, 6),
        (0b0111_0001, 8),
        (0x123456, 24),
        (0x654321, 24),
        (0, 1),
    ] {
        push(&mut bits, value, width);
    }
    let mut random = Random::new(2);
    let window = Window::placed(&bits, &mut random);
    let output = Output::drawn(&mut random);
    let shows = |window: &Window| {
        let judged = rewriting::judge(&judge::original(Message::AttachDetach, window));
        Checker::new(addresses_swapped)
            .window(Message::AttachDetach, window, &judged.outcome, &output)
            .is_err()
    };
    assert!(shows(&window));
    let small = shrink(&window, shows);
    // GSSI 0 and extension 1.
    let octets = vec![0xa1, 0xb8, 0x3e, 0x04, 0x04, 0, 0, 0, 0, 0, 0x04];
    assert_eq!(small, Window { octets, first: 0, end: 87 });
}
