//! Document 01's messages to try, read and written by the original.
//!
//! The bits of a message and its record are both worked from the paper. Each message stands at
//! several bits of its octets, with ones all around.

use oracle::records::*;
use oracle::{Fault, Panic, Read, Record, Written};
use tetra_core::pdu_parse_error::PduParseErr;
use tetra_pdus::mm::enums::energy_saving_mode::EnergySavingMode;
use tetra_pdus::mm::fields::energy_saving_information::EnergySavingInformation;
use tetra_pdus::mm::fields::group_identity_uplink::GroupIdentityUplink;
use tetra_pdus::mm::pdus::d_location_update_accept::DLocationUpdateAccept;
use tetra_pdus::mm::pdus::u_location_update_demand::ULocationUpdateDemand;

const DEMAND: u64 = 2;
const ACCEPT: u64 = 5;
const ATTACH_DETACH: u64 = 10;

/// Where the tests let a window start.
const FIRST_BITS: std::ops::RangeInclusive<usize> = 0..=8;

// Bits, as strings of 0 and 1.

fn field(value: u64, width: usize) -> String {
    format!("{value:0width$b}")
}

/// The first bits of octets in hexadecimal.
fn hex(octets: &str, count: usize) -> String {
    let digits = octets.chars().filter_map(|c| c.to_digit(16));
    let bits: String = digits.map(|digit| field(digit.into(), 4)).collect();
    bits[..count].to_owned()
}

/// M-bit, identifier, length, content.
fn element_of_length(length: u64, identifier: u64, content: &str) -> String {
    ["1", &field(identifier, 4), &field(length, 11), content].concat()
}

fn element(identifier: u64, content: &str) -> String {
    element_of_length(content.len() as u64, identifier, content)
}

fn list(identifier: u64, groups: &[String]) -> String {
    element(identifier, &(field(groups.len() as u64, 6) + &groups.concat()))
}

// Messages with an O-bit of 1, no type 2 elements, and a closing M-bit of 0.

fn demand_bits(elements: &str) -> String {
    ["0010", "011", "0", "0", "1", "00000", elements, "0"].concat()
}

fn accept_bits(elements: &str) -> String {
    ["0101", "011", "1", "00000", elements, "0"].concat()
}

fn attach_detach_bits(elements: &str) -> String {
    ["1010", "0", "1", "1", "1", elements, "0"].concat()
}

/// Groups of usage 4, and the bits of each.
fn uplinks(count: u32, extension: Option<u32>) -> (Vec<GroupIdentityUplink>, Vec<String>) {
    let address = |address: u32| field(address.into(), 24);
    let bits = |gssi: u32| match extension {
        None => ["0", "100", "00", &address(gssi)].concat(),
        Some(extension) => ["0", "100", "01", &address(gssi), &address(extension)].concat(),
    };
    let gssis = 0x80_0001..0x80_0001 + count;
    (gssis.clone().map(|gssi| uplink(gssi, extension)).collect(), gssis.map(bits).collect())
}

// Checks.

/// Octets with the bits at `first`, ones around them.
fn octets_with(bits: &str, first: usize) -> Vec<u8> {
    let mut octets = vec![0xff; (first + bits.len()).div_ceil(8) + 1];
    for (at, bit) in (first..).zip(bits.bytes()) {
        if bit == b'0' {
            octets[at / 8] ^= 0x80 >> (at % 8);
        }
    }
    octets
}

/// Every field of the record and the bits consumed, or the refusal.
fn answer(read: Result<Read, u64>) -> Result<(String, usize), u64> {
    read.map(|read| (format!("{:?}", read.record), read.consumed))
}

fn assert_answer(message: u64, bits: &str, expected: Result<(String, usize), u64>) {
    for first in FIRST_BITS {
        let octets = octets_with(bits, first);
        let read = oracle::read(message, &octets, first, first + bits.len());
        assert_eq!(answer(read), expected, "message {message}, {bits} at {first}");
    }
}

fn assert_reads(message: u64, bits: &str, record: &Record) {
    assert_answer(message, bits, Ok((format!("{record:?}"), bits.len())));
}

/// The record becomes these bits in a window that just holds them; no other bit changes.
fn assert_writes(record: &Record, bits: &str) {
    for first in FIRST_BITS {
        let end = first + bits.len();
        let octets = octets_with(bits, first);
        let mut before = octets.clone();
        for at in first..end {
            before[at / 8] ^= 0x80 >> (at % 8);
        }
        let written = oracle::write(record, &before, first, end);
        let bits = bits.len();
        assert_eq!(written, Ok(Written { octets, bits }), "{record:?} at {first}");
    }
}

fn assert_reads_and_writes(message: u64, bits: &str, record: &Record) {
    assert_reads(message, bits, record);
    assert_writes(record, bits);
}

#[test]
fn messages_without_elements() {
    let demand_with_ssi = ULocationUpdateDemand { ssi: Some(1), ..demand() };
    for (message, bits, record) in [
        (DEMAND, hex("26 00", 10), Record::Demand(demand())),
        (DEMAND, hex("26 44 00 00 04", 40), Record::Demand(demand_with_ssi)),
        (ACCEPT, hex("56", 8), Record::Accept(accept())),
        (ATTACH_DETACH, hex("A6", 8), Record::AttachDetach(attach_detach())),
    ] {
        assert_reads_and_writes(message, &bits, &record);
    }
}

#[test]
fn bits_after_the_message_are_not_read() {
    let read = oracle::read(DEMAND, &[0x26, 0x00], 0, 16);
    assert_eq!(answer(read), Ok((format!("{:?}", Record::Demand(demand())), 10)));
}

#[test]
fn an_o_bit_with_nothing_behind_it_is_not_written_back() {
    assert_reads(DEMAND, &hex("26 40", 16), &Record::Demand(demand()));
    let written = oracle::write(&Record::Demand(demand()), &[0x26, 0x40], 0, 16);
    let octets = vec![0x26, 0x00];
    assert_eq!(written, Ok(Written { octets, bits: 10 }));
}

#[test]
fn a_class_word_with_the_version_alone() {
    let record =
        Record::Demand(ULocationUpdateDemand { class_of_ms: Some(class_of_ms(7)), ..demand() });
    let word = hex("0000E0", 24);
    let bits = ["0010", "011", "0", "0", "1", "1", &word, "0000", "0"].concat();
    assert_reads_and_writes(DEMAND, &bits, &record);
}

#[test]
fn an_empty_list_is_not_an_absent_one() {
    let empty_uplinks = ["011", "1", "1000", "00000000110", "000000", "0"].concat();
    let empty_downlinks = ["1", "0111", "00000000110", "000000"].concat();
    let location_accept = ["101", &empty_downlinks, "0"].concat();
    for (message, bits, record) in [
        (DEMAND, demand_bits(&element(3, "010")), demand_with_groups(None)),
        (DEMAND, demand_bits(&element(3, &empty_uplinks)), demand_with_groups(Some(vec![]))),
        (ACCEPT, accept_bits(&element(5, "100")), accept_with_groups(None)),
        (ACCEPT, accept_bits(&element(5, &location_accept)), accept_with_groups(Some(vec![]))),
        (ATTACH_DETACH, hex("A6", 8), attach_detach_with_groups(None)),
        (
            ATTACH_DETACH,
            attach_detach_bits(&empty_downlinks),
            attach_detach_with_groups(Some(vec![])),
        ),
    ] {
        assert_reads_and_writes(message, &bits, &record);
    }
}

#[test]
fn the_longest_location_demands() {
    for (count, extension, length) in [(63, None, 1916), (37, Some(0x0c_c001), 2024)] {
        let (groups, group_bits) = uplinks(count, extension);
        let content = ["011", &list(8, &group_bits), "0"].concat();
        assert_eq!(content.len(), length);
        let bits = demand_bits(&element(3, &content));
        assert_reads_and_writes(DEMAND, &bits, &demand_with_groups(Some(groups)));
    }
}

#[test]
fn a_generic_element_keeps_its_length_and_its_first_64_bits() {
    let kept = 0x8123_4567_89ab_cdef;
    let content = |length| match length {
        0 => String::new(),
        _ => field(kept, 64) + &"1".repeat(length - 64),
    };
    for (length, data) in [(0, 0), (64, kept), (65, kept), (2047, kept)] {
        let bits = demand_bits(&element(9, &content(length)));
        let record = demand_with_generic(length, data);
        assert_reads(DEMAND, &bits, &record);
        if length <= 64 {
            assert_writes(&record, &bits);
        }
    }
    // A type 4's own length counts the 6 bits of its count, here 5; the record's doesn't.
    for (length, data) in [(0, 0), (64, kept), (65, kept), (2041, kept)] {
        let bits = accept_bits(&element(2, &["000101", &content(length)].concat()));
        assert_reads(ACCEPT, &bits, &accept_with_generic(length, 5, data));
    }
}

#[test]
fn the_reserved_bit_of_a_location_accept_is_ignored() {
    assert_reads(ACCEPT, &accept_bits(&element(5, "110")), &accept_with_groups(None));
}

#[test]
fn refusals() {
    // A type 4 of length 5, its count 0.
    let short = |identifier| element_of_length(5, identifier, "000000");
    // An element 9 whose last bit of content is outside the window.
    let cut = |length| {
        let mut bits = demand_bits(&element(9, &"1".repeat(length)));
        bits.truncate(bits.len() - 2);
        bits
    };
    let one_uplink = list(8, &uplinks(1, None).1);
    for (message, bits, number) in [
        (DEMAND, hex("26 00", 9), 2),
        (DEMAND, hex("26 41", 16), 2),
        (DEMAND, cut(64), 2),
        (DEMAND, cut(65), 2),
        (DEMAND, cut(2047), 2),
        (DEMAND, hex("36 00", 10), 3),
        (DEMAND, demand_bits(&element(3, "100")), 4),
        (DEMAND, demand_bits(&element(3, &["001", &short(8), "0"].concat())), 5),
        (ACCEPT, accept_bits(&short(2)), 5),
        (ATTACH_DETACH, attach_detach_bits(&short(7)), 5),
        // The count comes before the question about the length.
        (ATTACH_DETACH, ["10100111", &element_of_length(5, 7, "00000")].concat(), 2),
        (DEMAND, demand_bits(&element_of_length(2, 3, "000")), 6),
        (DEMAND, demand_bits(&element_of_length(4, 3, "000")), 6),
        (ATTACH_DETACH, attach_detach_bits(&element_of_length(7, 7, "000000")), 6),
        (DEMAND, hex("26 41 D0 07 40", 35), 7),
        (DEMAND, demand_bits(&element(3, &["001", &one_uplink, "1"].concat())), 7),
    ] {
        assert_answer(message, &bits, Err(number));
    }
}

#[test]
fn limits_of_a_call() {
    let mut octets = vec![0; 4097];
    octets[0] = 0x26;
    assert!(oracle::read(DEMAND, &octets[..4096], 0, 8 * 4096).is_ok());
    for (message, octets, first, end) in [
        (DEMAND, &octets[..], 0, 10),
        (DEMAND, &octets[..2], 11, 10),
        (DEMAND, &octets[..2], 0, 17),
        (3, &octets[..2], 0, 10),
    ] {
        assert_eq!(answer(oracle::read(message, octets, first, end)), Err(1));
    }
}

#[test]
fn faults_of_a_write_are_values() {
    let panic = |message: &str| {
        Fault::Panic(Panic { file: "bitbuffer.rs".to_owned(), message: message.to_owned() })
    };
    let stay_alive_with_frame = EnergySavingInformation {
        energy_saving_mode: EnergySavingMode::StayAlive,
        frame_number: Some(1),
        multiframe_number: None,
    };
    let accept_with_frame = DLocationUpdateAccept {
        energy_saving_information: Some(stay_alive_with_frame),
        ..accept()
    };
    let invalid_frame = PduParseErr::InvalidValue { field: "frame_number", value: 1 };
    let too_long = demand_with_groups(Some(uplinks(38, Some(0)).0));
    for (record, end, fault) in [
        (Record::Demand(demand()), 9, panic("write_bit would exceed buffer end")),
        (demand_with_generic(65, 0), 800, panic("can only write up to 64 bits")),
        // 6 + 38 x 54 bits of list.
        (too_long, 4000, panic("value exceeds num_bits 2058 11")),
        (Record::Accept(accept_with_frame), 800, Fault::Error(invalid_frame)),
        (Record::Demand(demand()), 8 * 500 + 1, Fault::OutsideLimits),
    ] {
        assert_eq!(oracle::write(&record, &[0; 500], 0, end), Err(fault));
    }
}
