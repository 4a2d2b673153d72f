//! Time of one record written, the original's `to_bitbuf` against our writing call, and of one message
//! rewritten: the original's `from_bitbuf` and `to_bitbuf`, against our `tetra_mm_rewrite`.
//!
//! Each side has an output of its own, in which it writes the same bits over and over.

use std::hint::black_box;

use tetra_core::BitBuffer;

use crate::messages::{Message, TIMES, Table, fastest, fastest_rounds, our_record, round, timed};

/// Our writing call of one message's own record: the number of bits written, 0 with a refusal.
pub type Writing<R> = unsafe extern "C" fn(
    record: R,
    octets: *mut u8,
    octets_len: usize,
    first: usize,
    end: usize,
) -> u64;

/// The same, so many times in a row: each turn is a writing call of its own, to which the record goes as Rattle passes it.
pub type Writings<R> = unsafe extern "C" fn(
    record: R,
    octets: *mut u8,
    octets_len: usize,
    first: usize,
    end: usize,
    times: usize,
) -> u64;

/// Octets behind the message, which must stay.
const BEHIND: usize = 5;
/// What stands in an output before.
const UNTOUCHED: u8 = 0xa7;

/// The outputs of the two sides.
struct Outputs {
    original: BitBuffer,
    ours: Vec<u8>,
}

impl Outputs {
    fn new(message: &[u8]) -> Self {
        let ours = vec![UNTOUCHED; message.len() + BEHIND];
        Self { original: BitBuffer::from_bytes(&ours), ours }
    }

    /// Both have the message, and nothing else, in their first bits.
    fn assert_equal(&self, message: &[u8], end: usize) {
        assert_eq!(self.original.get_pos(), end, "the original wrote another number of bits");
        assert!(self.original.clone().into_bytes() == self.ours, "the two wrote different octets");
        let whole = end / 8;
        assert!(self.ours[..whole] == message[..whole], "not the message that was read");
        assert!(self.ours[message.len()..] == [UNTOUCHED; BEHIND], "more than the message");
    }
}

pub struct FromRecord;

impl Table for FromRecord {
    fn times<M: Message>(octets: &[u8], end: usize) -> (f64, f64) {
        let record = M::read(&mut BitBuffer::from_bytes(octets)).expect("a message");
        let mut outputs = Outputs::new(octets);
        original_write(&record, &mut outputs.original);
        let own = our_record::<M>(octets, end);
        let bits = our_write::<M>(&own, &mut outputs.ours);
        assert_eq!(bits, end as u64, "ours refused or wrote otherwise");
        outputs.assert_equal(octets, end);
        let times = fastest_rounds(
            || timed(|| original_write(&record, black_box(&mut outputs.original))),
            || round(|| our_writes::<M>(&own, black_box(&mut outputs.ours), end)),
        );
        outputs.assert_equal(octets, end);
        times
    }
}

pub struct Rewritten;

impl Table for Rewritten {
    fn times<M: Message>(octets: &[u8], end: usize) -> (f64, f64) {
        let mut buffer = BitBuffer::from_bytes(octets);
        buffer.set_raw_end(end);
        let mut outputs = Outputs::new(octets);
        original_rewrite::<M>(&mut buffer, &mut outputs.original);
        let number = our_rewrite::<M>(octets, end, &mut outputs.ours);
        assert_eq!(number, 64 * end as u64, "ours refused or wrote otherwise");
        outputs.assert_equal(octets, end);
        fastest(
            || original_rewrite::<M>(&mut buffer, black_box(&mut outputs.original)),
            || our_rewrite::<M>(octets, end, black_box(&mut outputs.ours)),
        )
    }
}

fn original_write<M: Message>(record: &M, out: &mut BitBuffer) {
    out.set_raw_pos(0);
    record.write(out).expect("a record that the original writes");
}

fn original_rewrite<M: Message>(buffer: &mut BitBuffer, out: &mut BitBuffer) {
    buffer.set_raw_pos(0);
    let record = M::read(buffer).expect("a message that the original reads");
    original_write(&record, out);
}

fn our_write<M: Message>(own: &M::Own, out: &mut [u8]) -> u64 {
    // SAFETY: the record is one of this message, and the pointer and the length are one slice's.
    unsafe { (M::OUR_WRITING)(*own, out.as_mut_ptr(), out.len(), 0, 8 * out.len()) }
}

fn our_writes<M: Message>(own: &M::Own, out: &mut [u8], end: usize) {
    // SAFETY: as above.
    let bits = unsafe {
        (M::OUR_WRITINGS)(*own, out.as_mut_ptr(), out.len(), 0, 8 * out.len(), black_box(TIMES))
    };
    assert_eq!(bits, end as u64, "ours refused or wrote otherwise");
}

fn our_rewrite<M: Message>(octets: &[u8], end: usize, out: &mut [u8]) -> u64 {
    let out_end = 8 * out.len() as u64;
    tetra_mm::rewrite_into(M::NUMBER, octets, 0, end as u64, out, 0, out_end)
}
