//! The comparison finds libraries that are wrong in one point, and shrinks what shows it.

mod rewriters;

use compare::check::{Checker, Library, Read};
use compare::judge;
use compare::random::Random;
use compare::report::Report;
use compare::window::{Window, push, shrink};
use compare::windows;
use tetra_mm::{Message, read_into};

/// Drawn windows that make each of these show.
const COUNT: usize = 20_000;

/// Whether one of them differs.
fn differs(library: Library) -> bool {
    let mut report = Report::new(library);
    let mut random = Random::new(1);
    (0..COUNT).any(|_| {
        windows::drawn(&mut report, &mut random);
        report.differ() > 0
    })
}

#[test]
fn the_library_itself_does_not_differ() {
    assert!(!differs(Library::LINKED));
}

#[test]
fn wrong_libraries_differ() {
    // The last bit of a demand's SSI.
    fn address(m: u64, r: u64, octets: &[u8], first: u64, end: u64, flat: &mut [u8]) -> u64 {
        let result = read_into(m, r, octets, first, end, flat);
        const SSI: usize = 5 * 9 + 1 + 22 * 9 + 2 * 9;
        if result % 64 == 0 && m == 2 && flat[SSI] == 1 {
            flat[SSI + 8] ^= 1;
        }
        result
    }
    fn consumed(m: u64, r: u64, octets: &[u8], first: u64, end: u64, flat: &mut [u8]) -> u64 {
        let result = read_into(m, r, octets, first, end, flat);
        if result % 64 == 0 { result + 64 } else { result }
    }
    fn refusal(m: u64, r: u64, octets: &[u8], first: u64, end: u64, flat: &mut [u8]) -> u64 {
        let result = read_into(m, r, octets, first, end, flat);
        if result == 6 { 7 } else { result }
    }
    fn past_the_form(m: u64, r: u64, octets: &[u8], first: u64, end: u64, flat: &mut [u8]) -> u64 {
        let result = read_into(m, r, octets, first, end, flat);
        if let Some(last) = flat.last_mut().filter(|_| result % 64 == 0) {
            *last ^= 1;
        }
        result
    }
    fn refused_and_written(
        m: u64,
        r: u64,
        octets: &[u8],
        first: u64,
        end: u64,
        flat: &mut [u8],
    ) -> u64 {
        let result = read_into(m, r, octets, first, end, flat);
        if let Some(octet) = flat.first_mut().filter(|_| result == 7) {
            *octet = 0;
        }
        result
    }
    fn short_buffer(m: u64, r: u64, octets: &[u8], first: u64, end: u64, flat: &mut [u8]) -> u64 {
        match read_into(m, r, octets, first, end, flat) {
            16 => 0,
            result => result,
        }
    }
    fn never_skipping(m: u64, r: u64, octets: &[u8], first: u64, end: u64, flat: &mut [u8]) -> u64 {
        read_into(m, if r == 1 { 0 } else { r }, octets, first, end, flat)
    }
    fn always_skipping(
        m: u64,
        r: u64,
        octets: &[u8],
        first: u64,
        end: u64,
        flat: &mut [u8],
    ) -> u64 {
        read_into(m, if r == 0 { 1 } else { r }, octets, first, end, flat)
    }
    fn one_skipped(m: u64, r: u64, octets: &[u8], first: u64, end: u64, flat: &mut [u8]) -> u64 {
        let result = read_into(m, r, octets, first, end, flat);
        if result % 64 == 0 {
            flat[8] = flat[8].min(1);
        }
        result
    }
    fn limits(m: u64, r: u64, octets: &[u8], first: u64, end: u64, flat: &mut [u8]) -> u64 {
        read_into(m, r, octets, first, end.min(8 * octets.len() as u64), flat)
    }
    for (name, read) in [
        ("address", address as Read),
        ("consumed", consumed),
        ("refusal", refusal),
        ("past_the_form", past_the_form),
        ("refused_and_written", refused_and_written),
        ("short_buffer", short_buffer),
        ("never_skipping", never_skipping),
        ("always_skipping", always_skipping),
        ("one_skipped", one_skipped),
        ("limits", limits),
    ] {
        assert!(differs(Library { read, ..Library::LINKED }), "{name}");
    }

    // An address that is one bit off shows in no demand of fewer than 40 bits.
    let mut bits = vec![];
    for (value, width) in [
        (2, 4),
        (0b01100, 5),
        (0b11, 2),
        (0x0000e0, 24),
        (0b001, 3),
        (0x123456, 24),
        (0, 1),
        (0b1_1001_00000000111, 16),
        (0b1010101, 7),
        (0, 1),
    ] {
        push(&mut bits, value, width);
    }
    let window = Window::placed(&bits, &mut Random::new(2));
    let differs = |window: &Window| {
        let original = judge::original(Message::Demand, window);
        let [strict, _] = Checker::new(address).window(Message::Demand, window, &original);
        strict.1.is_err()
    };
    assert!(differs(&window));
    let small = shrink(&window, differs);
    assert_eq!(small, Window { octets: vec![0x20, 0x44, 0, 0, 0], first: 0, end: 40 });
}
