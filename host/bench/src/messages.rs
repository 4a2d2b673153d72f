//! The messages that are timed, and the time of one read whole: the original's `from_bitbuf`
//! against our reading call.
//!
//! A table is printed as tab-separated lines: message, groups, bits, and the nanoseconds per
//! message of the original and of ours, each the fastest of many rounds.

use std::hint::black_box;
use std::mem::MaybeUninit;
use std::time::Instant;

use oracle::records::{self, demand};
use tetra_core::BitBuffer;
use tetra_core::pdu_parse_error::PduParseErr;
use tetra_core::typed_pdu_fields::Type3FieldGeneric;
use tetra_pdus::mm::enums::energy_saving_mode::EnergySavingMode;
use tetra_pdus::mm::enums::type34_elem_id_ul::MmType34ElemIdUl;
use tetra_pdus::mm::fields::class_of_ms::ClassOfMs;
use tetra_pdus::mm::fields::group_identity_attachment::GroupIdentityAttachment;
use tetra_pdus::mm::fields::group_identity_downlink::GroupIdentityDownlink;
use tetra_pdus::mm::fields::group_identity_location_accept::GroupIdentityLocationAccept;
use tetra_pdus::mm::fields::group_identity_location_demand::GroupIdentityLocationDemand;
use tetra_pdus::mm::fields::group_identity_uplink::GroupIdentityUplink;
use tetra_pdus::mm::pdus::d_attach_detach_group_identity::DAttachDetachGroupIdentity;
use tetra_pdus::mm::pdus::d_location_update_accept::DLocationUpdateAccept;
use tetra_pdus::mm::pdus::u_location_update_demand::ULocationUpdateDemand;

use crate::flat::Flat;
use crate::writing::{Writing, Writings};

/// A record of one message, in so many words, as our writings take it.
#[repr(C)]
#[derive(Clone, Copy)]
pub struct Own<const WORDS: usize>(MaybeUninit<[u64; WORDS]>);

const DEMAND_WORDS: usize = 187;
const ACCEPT_WORDS: usize = 195;
const ATTACH_DETACH_WORDS: usize = 171;

/// The records of a reading call: the message's own is filled.
#[repr(C)]
pub struct Records {
    demand: Own<DEMAND_WORDS>,
    accept: Own<ACCEPT_WORDS>,
    attach_detach: Own<ATTACH_DETACH_WORDS>,
}

unsafe extern "C" {
    fn measure_record(
        octets: *const u8,
        octets_len: usize,
        first: usize,
        end: usize,
        message: u64,
        wanted: u64,
    ) -> Records;
}

/// Our reading call of one message: 64 times the bits consumed, plus a refusal's number. The record is left behind in the library.
pub type Reading = unsafe extern "C" fn(
    octets: *const u8,
    octets_len: usize,
    first: usize,
    end: usize,
    wanted: u64,
) -> u64;

macro_rules! reading {
    ($name:ident) => {
        unsafe extern "C" {
            fn $name(
                octets: *const u8,
                octets_len: usize,
                first: usize,
                end: usize,
                wanted: u64,
            ) -> u64;
        }
    };
}

reading!(measure_read_demand);
reading!(measure_read_accept);
reading!(measure_read_attach_detach);

macro_rules! writing {
    ($once:ident, $often:ident, $words:expr) => {
        unsafe extern "C" {
            fn $once(
                record: Own<$words>,
                octets: *mut u8,
                octets_len: usize,
                first: usize,
                end: usize,
            ) -> u64;
            fn $often(
                record: Own<$words>,
                octets: *mut u8,
                octets_len: usize,
                first: usize,
                end: usize,
                times: usize,
            ) -> u64;
        }
    };
}

writing!(measure_write_demand, measure_writes_demand, DEMAND_WORDS);
writing!(measure_write_accept, measure_writes_accept, ACCEPT_WORDS);
writing!(measure_write_attach_detach, measure_writes_attach_detach, ATTACH_DETACH_WORDS);

const STRICT: u64 = 0;
const ROUNDS: usize = 400;
/// The messages of a round.
pub const TIMES: usize = 500;

pub trait Message: Flat + Sized {
    /// The message's type number.
    const NUMBER: u64;
    const OUR_READING: Reading;
    /// The message's own record in our layout.
    type Own: Copy;
    const OUR_WRITING: Writing<Self::Own>;
    const OUR_WRITINGS: Writings<Self::Own>;

    fn own(records: Records) -> Self::Own;

    fn read(buffer: &mut BitBuffer) -> Result<Self, PduParseErr>;

    fn write(&self, buffer: &mut BitBuffer) -> Result<(), PduParseErr>;
}

macro_rules! message {
    (
        $record:ty,
        $number:expr,
        $our_reading:expr,
        $our_writing:expr,
        $our_writings:expr,
        $own:ident,
        $words:expr
    ) => {
        impl Message for $record {
            const NUMBER: u64 = $number;
            const OUR_READING: Reading = $our_reading;
            type Own = Own<$words>;
            const OUR_WRITING: Writing<Self::Own> = $our_writing;
            const OUR_WRITINGS: Writings<Self::Own> = $our_writings;

            fn own(records: Records) -> Self::Own {
                records.$own
            }

            fn read(buffer: &mut BitBuffer) -> Result<Self, PduParseErr> {
                Self::from_bitbuf(buffer)
            }

            fn write(&self, buffer: &mut BitBuffer) -> Result<(), PduParseErr> {
                self.to_bitbuf(buffer)
            }
        }
    };
}

message!(
    ULocationUpdateDemand,
    2,
    measure_read_demand,
    measure_write_demand,
    measure_writes_demand,
    demand,
    DEMAND_WORDS
);
message!(
    DLocationUpdateAccept,
    5,
    measure_read_accept,
    measure_write_accept,
    measure_writes_accept,
    accept,
    ACCEPT_WORDS
);
message!(
    DAttachDetachGroupIdentity,
    10,
    measure_read_attach_detach,
    measure_write_attach_detach,
    measure_writes_attach_detach,
    attach_detach,
    ATTACH_DETACH_WORDS
);

/// What a table times.
pub trait Table {
    /// The nanoseconds per message of the original and of ours, for a message in bits `0..end`.
    fn times<M: Message>(octets: &[u8], end: usize) -> (f64, f64);
}

pub fn print<T: Table>() {
    let short = line::<T, _>("demand, nothing optional", "", demand());
    assert_eq!(short, [0x26, 0x00]);
    let ssi =
        line::<T, _>("demand, SSI only", "", ULocationUpdateDemand { ssi: Some(1), ..demand() });
    assert_eq!(ssi, [0x26, 0x44, 0x00, 0x00, 0x04]);
    for count in [0, 1, 4, 16, 37] {
        line::<T, _>("demand, full", count, full_demand(count));
    }
    for count in [1, 16, 63] {
        line::<T, _>("attach/detach", count, attach_detach(count));
    }
    for count in [0, 4, 16] {
        line::<T, _>("accept", count, accept(count));
    }
}

/// Prints a line and gives the octets that both sides read.
fn line<T: Table, M: Message>(name: &str, groups: impl ToString, record: M) -> Vec<u8> {
    let mut buffer = BitBuffer::new_autoexpand(4096);
    record.write(&mut buffer).expect("a message that the original writes");
    let end = buffer.get_pos();
    let mut octets = buffer.into_bytes();
    octets.truncate(end.div_ceil(8));

    let (original, ours) = T::times::<M>(&octets, end);
    println!("{name}\t{}\t{end}\t{original:.2}\t{ours:.2}", groups.to_string());
    octets
}

pub fn fastest<A, B>(mut original: impl FnMut() -> A, mut ours: impl FnMut() -> B) -> (f64, f64) {
    fastest_rounds(|| timed(&mut original), || timed(&mut ours))
}

/// The fastest of many rounds of both, a round giving its nanoseconds per call.
pub fn fastest_rounds(
    mut original: impl FnMut() -> f64,
    mut ours: impl FnMut() -> f64,
) -> (f64, f64) {
    let mut best = (f64::MAX, f64::MAX);
    for _ in 0..ROUNDS {
        best.0 = best.0.min(original());
        best.1 = best.1.min(ours());
    }
    best
}

/// A round of single calls.
pub fn timed<T>(mut call: impl FnMut() -> T) -> f64 {
    round(|| {
        for _ in 0..TIMES {
            black_box(&call());
        }
    })
}

/// Nanoseconds per call of `TIMES` calls.
pub fn round(calls: impl FnOnce()) -> f64 {
    let start = Instant::now();
    calls();
    start.elapsed().as_nanos() as f64 / TIMES as f64
}

pub struct IntoRecord;

impl Table for IntoRecord {
    fn times<M: Message>(octets: &[u8], end: usize) -> (f64, f64) {
        let mut buffer = BitBuffer::from_bytes(octets);
        buffer.set_raw_end(end);
        original_read::<M>(&mut buffer).expect("a message that the original reads");
        assert_eq!(buffer.get_pos(), end, "the original consumed another number of bits");
        let number = our_read::<M>(octets, end);
        assert_eq!(number, 64 * end as u64, "ours refused or consumed otherwise");

        fastest(|| original_read::<M>(&mut buffer), || our_read::<M>(octets, end))
    }
}

// Both make the record: the original hands it to `timed`, which drops it.

fn original_read<M: Message>(buffer: &mut BitBuffer) -> Result<M, PduParseErr> {
    buffer.set_raw_pos(0);
    M::read(buffer)
}

fn our_read<M: Message>(octets: &[u8], end: usize) -> u64 {
    // SAFETY: the pointer and the length are one slice's.
    unsafe { (M::OUR_READING)(octets.as_ptr(), octets.len(), 0, end, STRICT) }
}

/// Our record of a message.
pub fn our_record<M: Message>(octets: &[u8], end: usize) -> M::Own {
    // SAFETY: the pointer and the length are one slice's.
    M::own(unsafe { measure_record(octets.as_ptr(), octets.len(), 0, end, M::NUMBER, STRICT) })
}

// The records.

/// Every element, the list with `count` groups.
fn full_demand(count: u32) -> ULocationUpdateDemand {
    let mut class = BitBuffer::from_bytes(&[0xb5, 0xc3, 0x96]);
    ULocationUpdateDemand {
        cipher_control: true,
        ciphering_parameters: Some(0x2a5),
        class_of_ms: Some(ClassOfMs::from_bitbuf(&mut class).expect("24 bits")),
        energy_saving_mode: Some(EnergySavingMode::Eg3),
        la_information: Some(0x1234),
        ssi: Some(0x12_3456),
        address_extension: Some(0x65_4321),
        group_identity_location_demand: Some(GroupIdentityLocationDemand {
            group_identity_attach_detach_mode: 1,
            group_identity_uplink: Some((0..count).map(uplink).collect()),
        }),
        group_report_response: generic(MmType34ElemIdUl::GroupReportResponse, 1),
        authentication_uplink: generic(MmType34ElemIdUl::AuthenticationUplink, 40),
        extended_capabilities: generic(MmType34ElemIdUl::ExtendedCapabilities, 24),
        proprietary: generic(MmType34ElemIdUl::Proprietary, 64),
        ..demand()
    }
}

fn generic(identifier: MmType34ElemIdUl, len: usize) -> Option<Type3FieldGeneric> {
    let data = 0xb5c3_96a5_5a69_3c4b >> (64 - len);
    Some(Type3FieldGeneric { field_id: identifier.into_raw(), len, data })
}

/// 54 bits: a class of usage, and GSSI and extension.
fn uplink(i: u32) -> GroupIdentityUplink {
    GroupIdentityUplink {
        class_of_usage: Some((i % 8) as u8),
        group_identity_detachment_uplink: None,
        gssi: Some(0x12_3456 + i),
        address_extension: Some(0x65_4321),
        vgssi: None,
    }
}

/// 32 bits: an attachment, and a GSSI.
fn downlink(i: u32) -> GroupIdentityDownlink {
    GroupIdentityDownlink {
        group_identity_attachment: Some(GroupIdentityAttachment {
            group_identity_attachment_lifetime: 3,
            class_of_usage: (i % 8) as u8,
        }),
        group_identity_detachment_uplink: None,
        gssi: Some(0x12_3456 + i),
        address_extension: None,
        vgssi: None,
    }
}

fn attach_detach(count: u32) -> DAttachDetachGroupIdentity {
    DAttachDetachGroupIdentity {
        group_identity_downlink: Some((0..count).map(downlink).collect()),
        ..records::attach_detach()
    }
}

fn accept(count: u32) -> DLocationUpdateAccept {
    DLocationUpdateAccept {
        ssi: Some(0x12_3456),
        group_identity_location_accept: Some(GroupIdentityLocationAccept {
            group_identity_accept_reject: 0,
            group_identity_downlink: Some((0..count).map(downlink).collect()),
        }),
        ..records::accept()
    }
}
