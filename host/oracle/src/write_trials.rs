//! Records written to octets of ones: the octets by the original, the refusals by document 01's
//! questions.

use std::fmt::Write;

use crate::records::demand;
use crate::written::{Trial, trials};
use crate::{MAX_OCTETS, Message, Record, Refusal, Written, is_window, write};

/// The octets of a call that doesn't name its own.
const OCTETS: usize = 512;
const BITS: usize = 8 * OCTETS;

/// What the program write_trials prints: for each trial a line with the name, the bits and the octets
/// from that of the window's first bit to that of the last one written, or the number of the refusal,
/// and that the other octets are kept.
pub fn lines() -> String {
    let mut lines = Lines::default();
    lines.table();
    lines.places();
    lines.limits();
    lines.not_held();
    lines.not_looked_at();
    lines.0
}

#[derive(Default)]
struct Lines(String);

/// One writing call, with so many octets of ones.
struct Call {
    message: u64,
    octets: usize,
    first: usize,
    end: usize,
}

impl Call {
    fn new(record: &Record, first: usize, end: usize) -> Self {
        Self { message: record.message() as u64, octets: OCTETS, first, end }
    }

    fn answer(&self, record: &Record) -> Result<Written, Refusal> {
        let &Self { message, octets, first, end } = self;
        if Message::from_number(message).is_none() || !is_window(octets, first, end) {
            return Err(1);
        }
        if let Some(number) = record.write_refusal() {
            return Err(number);
        }
        write(record, &vec![0xff; octets], first, end).map_err(|fault| {
            let number = fault.write_refusal();
            assert_eq!(number, Some(16), "{fault:?} though no question is answered with no");
            16
        })
    }
}

impl Lines {
    fn line(&mut self, name: &str, call: &Call, record: &Record) {
        match call.answer(record) {
            Ok(written) => self.written(name, call.first, written),
            Err(number) => self.refused(name, number),
        }
    }

    fn written(&mut self, name: &str, first: usize, Written { octets, bits }: Written) {
        let (from, to) = (first / 8, (first + bits).div_ceil(8));
        let mut others = octets[..from].iter().chain(&octets[to..]);
        assert!(others.all(|&octet| octet == 0xff), "{name}");
        let shown: Vec<String> =
            octets[from..to].iter().map(|octet| format!("{octet:02x}")).collect();
        let shown = shown.join(" ");
        writeln!(self.0, "{name} | {bits} bits: {shown} | kept").expect("a string takes all");
    }

    fn refused(&mut self, name: &str, number: Refusal) {
        writeln!(self.0, "{name} | refused {number} | kept").expect("a string takes all");
    }

    fn table(&mut self) {
        for Trial { name, record, room, answer } in trials() {
            let call = Call::new(&record, 0, room.min(BITS));
            assert_eq!(call.answer(&record).map(|written| written.bits), answer, "{name}");
            self.line(&name, &call, &record);
        }
    }

    /// A record of the table in another window.
    fn window(&mut self, of: &str, first: usize, end: usize) {
        let record = of_table(of);
        let name = format!("{of}, bits {first} to {end}");
        self.line(&name, &Call::new(&record, first, end), &record);
    }

    /// Windows that start inside an octet: just long enough, one bit short, and longer.
    fn places(&mut self) {
        for first in 1..8 {
            for end in [first + 40, first + 39, BITS] {
                self.window("demand, SSI 1", first, end);
            }
        }
        for (name, first, bits) in [
            ("accept, nothing optional", BITS - 8, 8),
            ("uplink, detached", 5, 87),
            ("downlink, GSSI and extension and VGSSI, nested", 3, 136),
            ("63 uplinks of 30 bits", 3, 1948),
            ("37 uplinks of 54 bits", 7, 2056),
            ("attach/detach, 63 downlinks of 32 bits", 1, 2047),
        ] {
            self.window(name, first, first + bits);
            self.window(name, first, first + bits - 1);
        }
    }

    /// Question 1, and that it comes before the others.
    fn limits(&mut self) {
        let record = Record::Demand(demand());
        for message in [0, 3, 4, 258, u64::MAX] {
            let call = Call { message, ..Call::new(&record, 0, 10) };
            self.line(&format!("message {message}"), &call, &record);
        }
        for (octets, first, end) in [
            (MAX_OCTETS, 32758, 32768),
            (MAX_OCTETS, 32758, 32769),
            (MAX_OCTETS + 1, 0, 10),
            (OCTETS, 0, BITS),
            (OCTETS, 0, BITS + 1),
            (OCTETS, 0, usize::MAX),
            (OCTETS, 1, 0),
            (OCTETS, usize::MAX, usize::MAX),
            (OCTETS, BITS, BITS),
            (0, 0, 0),
            (0, 0, 1),
        ] {
            let call = Call { octets, ..Call::new(&record, first, end) };
            let name = format!("{octets} octets, bits {first} to {end}");
            self.line(&name, &call, &record);
        }
        self.window("demand, SSI 2^24", 1, 0);
    }

    /// Records that the original's types can't hold. WORKED BY HAND from document 01: a number over its
    /// width or a count over 63 is 8, before any other question.
    fn not_held(&mut self) {
        for name in [
            "demand, update type 8",
            "demand, update type 255",
            "demand, append 2",
            "demand, cipher control 2",
            "demand, first flag 2",
            "demand, flag before the version 2",
            "demand, flag behind the version 2",
            "demand, last flag 255",
            "demand, saving mode 8",
            "uplink, class of usage 256",
            "demand, list count 2^64 - 1",
            "accept, accept type 8",
            "accept, saving mode 8",
            "accept, list count 2^64 - 1",
            "attach/detach, report 2",
            "attach/detach, acknowledgement request 2",
            "attach/detach, mode 2",
            "attach/detach, list count 2^64 - 1",
            "demand, 8 and 9: cipher control 2 without ciphering",
            "accept, 8 and 13: saving mode 8 without both",
        ] {
            self.refused(name, 8);
        }
    }

    /// Values that nothing may look at, which the original's types can't hold either: WORKED BY HAND from
    /// document 01, the message is that of the record without them, which the original writes.
    fn not_looked_at(&mut self) {
        for (name, same_as) in [
            ("demand, values in all that is absent", "demand, nothing optional"),
            ("accept, values in all that is absent", "accept, nothing optional"),
            ("attach/detach, values in all that is absent", "attach/detach, nothing optional"),
            ("demand, values in an absent list", "demand, no list"),
            ("accept, values in an absent list", "accept, no list"),
            ("demand, values behind an empty list", "demand, empty list"),
            ("accept, values behind an empty list", "accept, empty list"),
            ("attach/detach, values behind an empty list", "attach/detach, empty list"),
            ("uplink, values behind one group", "uplink, GSSI"),
            ("downlink, values behind one group", "downlink, GSSI"),
            ("downlink, values behind one group, nested", "downlink, GSSI, nested"),
            ("uplink, values in what is absent", "uplink, GSSI"),
            ("uplink, values in what is absent, detached", "uplink, detached"),
            ("downlink, values in what is absent", "downlink, GSSI"),
            ("downlink, values in what is absent, nested", "downlink, GSSI, nested"),
            ("accept, StayAlive, values in what is absent", "accept, StayAlive"),
        ] {
            let record = of_table(same_as);
            self.line(name, &Call::new(&record, 0, BITS), &record);
        }
    }
}

fn of_table(name: &str) -> Record {
    let mut trials = trials().into_iter();
    trials.find(|trial| trial.name == name).expect("a trial's name").record
}
