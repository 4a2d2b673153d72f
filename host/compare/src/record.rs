//! A sample of windows with the original's answers, for the program replay: of readings, and of rewritings.

use std::collections::{BTreeMap, BTreeSet};
use std::fmt::Write;

use tetra_mm::{FLAT_MAX, Message, Read, Record};

use crate::check::Call;
use crate::form;
use crate::judge::{self, Answer};
use crate::random::Random;
use crate::rewriting::{self, Outcome};
use crate::window::Window;
use crate::windows::{self, Drawn};

const SEED: u64 = 16_10;
const DRAWN: usize = 60_000;
const REWRITING_SEED: u64 = 16_24;
const REWRITINGS_DRAWN: usize = 20_000;

/// So many windows of each message, reading and refusal, and for each element of each message and reading.
const OF_A_REFUSAL: usize = 60;
const OF_AN_ELEMENT: usize = 20;

/// The octets of most windows; the longer ones only for what the shorter don't show.
const SHORT: usize = 64;

/// What stands in the program's buffer before each reading.
const UNTOUCHED: u8 = 0xa5;

/// What stands for a rewriting where a reading's number stands otherwise.
pub const REWRITING: u8 = 255;

/// What the program reads and what it must print.
#[derive(Default)]
pub struct Recorded {
    /// Each reading: message, reading, first bit, end bit, count of octets (1, 1, 2, 2 and 2 octets,
    /// high first), and the octets.
    ///
    /// Each rewriting: message, 255, first bit, end bit, count of octets (as above), the output's first
    /// bit, its end bit, its count of octets, the octet that it is filled with (2, 2, 2 and 1 octets, high
    /// first), and the octets of the input.
    pub stdin: Vec<u8>,
    /// Each answer, a line. Of a reading: refusal, bits consumed, count skipped, and the digest of the flat
    /// buffer. Of a rewriting: refusal, bits written, and the digest of the output's octets.
    pub stdout: String,
    pub count: usize,
    /// What the answers show: message, reading, and a refusal or something in a record.
    pub shown: BTreeSet<String>,
}

impl Recorded {
    /// Whether a window that shows this is kept: where something in it has been shown less than so often.
    fn keeps(
        &mut self,
        kept: &mut BTreeMap<String, usize>,
        shown: BTreeSet<String>,
        most: usize,
    ) -> bool {
        let enough = shown.iter().all(|what| kept.get(what).is_some_and(|&count| count >= most));
        if !enough {
            for what in shown {
                self.shown.insert(what.clone());
                *kept.entry(what).or_insert(0) += 1;
            }
        }
        !enough
    }

    fn small(&mut self, number: u64) {
        self.stdin.push(u8::try_from(number).expect("a number of one octet"));
    }

    fn pairs(&mut self, numbers: [u64; 3]) {
        for number in numbers {
            let pair = u16::try_from(number).expect("a number of two octets");
            self.stdin.extend(pair.to_be_bytes());
        }
    }

    fn add(&mut self, call: Call, octets: &[u8], answer: &Answer) {
        assert_ne!(call.reading, u64::from(REWRITING));
        self.small(call.message);
        self.small(call.reading);
        self.pairs([call.first, call.end, octets.len() as u64]);
        self.stdin.extend(octets);

        let mut flat = vec![UNTOUCHED; FLAT_MAX];
        let (refusal, consumed, skipped) = match answer {
            Ok(read) => {
                let form = form::flat(read);
                flat[..form.len()].copy_from_slice(&form);
                (0, read.consumed, read.skipped)
            }
            Err(number) => (*number, 0, 0),
        };
        writeln!(self.stdout, "{refusal} {consumed} {skipped} {:016x}", fnv1a(&flat)).unwrap();
        self.count += 1;
    }

    /// To an output of so many octets, each of them `fill`.
    fn add_rewriting(
        &mut self,
        call: rewriting::Call,
        octets: &[u8],
        count: usize,
        fill: u8,
        outcome: &Outcome,
    ) {
        self.small(call.message);
        self.small(REWRITING.into());
        self.pairs([call.first, call.end, octets.len() as u64]);
        self.pairs([call.out_first, call.out_end, count as u64]);
        self.small(fill.into());
        self.stdin.extend(octets);

        let (first, end) = (call.out_first as usize, call.out_end as usize);
        let (result, out) = outcome.result(&vec![fill; count], first, end);
        self.stdout += &rewriting_line(result, &out);
        self.count += 1;
    }
}

/// What the program prints of a rewriting.
pub fn rewriting_line(result: u64, out: &[u8]) -> String {
    format!("{} {} {:016x}\n", result % 64, result / 64, fnv1a(out))
}

/// The sample: the same at each call.
fn readings() -> Recorded {
    let mut recorded = Recorded::default();
    let mut random = Random::new(SEED);
    let mut kept = BTreeMap::new();
    for _ in 0..DRAWN {
        match windows::draw(&mut random) {
            Drawn::Window(message, window) => {
                let answers =
                    [judge::strict(message, &window), judge::skipping(message, &window).0];
                for (reading, judged) in answers.into_iter().enumerate() {
                    let most = match judged.answer {
                        Ok(_) => OF_AN_ELEMENT,
                        Err(_) => OF_A_REFUSAL,
                    };
                    let shown = shown(message, &reading.to_string(), &judged.answer);
                    let short = window.octets.len() <= SHORT;
                    let most = if short { most } else { most / 10 };
                    if !recorded.keeps(&mut kept, shown, most) {
                        continue;
                    }
                    let call = Call {
                        message: message as u64,
                        reading: reading as u64,
                        first: window.first as u64,
                        end: window.end as u64,
                    };
                    recorded.add(call, &window.octets, &judged.answer);
                }
            }
            Drawn::Limits(call, octets) => {
                let Call { message, reading, first, end } = call;
                let written = message.max(reading) < 256 && first.max(end) < 65536;
                let count = kept.entry("limits".to_owned()).or_insert(0);
                if written && octets.len() <= SHORT && *count < OF_A_REFUSAL {
                    *count += 1;
                    recorded.add(call, &octets, &Err(1));
                }
            }
        }
    }
    recorded.add(Call { message: 2, reading: 0, first: 0, end: 10 }, &[0; 4097], &Err(1));
    recorded
}

/// The sample: readings, and rewritings behind them: for each message, each refusal that a rewriting can meet, and each
/// element that it can write.
pub fn recorded() -> Recorded {
    let mut recorded = readings();
    let mut random = Random::new(REWRITING_SEED);
    let mut kept = BTreeMap::new();
    for _ in 0..REWRITINGS_DRAWN {
        match windows::draw(&mut random) {
            Drawn::Window(message, window) => {
                let original = judge::original(message, &window);
                let outcome = rewriting::judge(&original).outcome;
                let (count, first, end) = draw_output(&outcome, &mut random);
                let (result, _) = outcome.result(&vec![0; count], first, end);
                let answer = match result % 64 {
                    0 => judge::strict_of(&original).answer,
                    number => Err(number as u8),
                };
                let most = if answer.is_ok() { OF_AN_ELEMENT } else { OF_A_REFUSAL };
                let most = if window.octets.len() <= SHORT { most } else { most / 10 };
                let shown = shown(message, "rewriting", &answer);
                if recorded.keeps(&mut kept, shown, most) {
                    let call = rewriting::Call::new(message, &window, first, end);
                    let fill = random.next() as u8;
                    recorded.add_rewriting(call, &window.octets, count, fill, &outcome);
                }
            }
            Drawn::Limits(call, octets) => {
                let Call { message, reading, first, end } = call;
                let recordable = message < 256 && reading < 2 && first.max(end) < 65536;
                let shown = BTreeSet::from(["rewriting limits".to_owned()]);
                if recordable
                    && octets.len() <= SHORT
                    && recorded.keeps(&mut kept, shown, OF_A_REFUSAL)
                {
                    let call = rewriting::Call { message, first, end, out_first: 5, out_end: 320 };
                    recorded.add_rewriting(call, &octets, 40, 0xff, &Outcome::Unread(1));
                }
            }
        }
    }
    // The longest output, one that is too long, and an input that is.
    let call = rewriting::Call { message: 2, first: 0, end: 10, out_first: 32758, out_end: 32768 };
    let written = Outcome::Written(Window { octets: vec![0x26, 0x00], first: 0, end: 10 }.bits());
    recorded.add_rewriting(call, &[0x26, 0x00], 4096, 0xff, &written);
    recorded.add_rewriting(call, &[0x26, 0x00], 4097, 0xff, &written);
    recorded.add_rewriting(call, &[0x26; 4097], 4096, 0xff, &Outcome::Unread(1));
    recorded
}

/// A count of octets, and a window of them: mostly one that holds the message, just or with bits to spare.
fn draw_output(outcome: &Outcome, random: &mut Random) -> (usize, usize, usize) {
    let (first, behind) = (random.below(20), random.below(3));
    let bits = match outcome {
        Outcome::Unread(_) | Outcome::Unwritten(_) => random.below(80),
        Outcome::Written(bits) => bits.len() + random.pick(&[0, 0, 1, 7, 8, 40]),
    };
    let end = first + bits;
    let count = end.div_ceil(8) + behind;
    match random.below(8) {
        0 => (count, first, end.saturating_sub(1).max(first)),
        1 => (count, first, 8 * count + 1),
        2 => (count, first + end + 1, end),
        _ => (count, first, end),
    }
}

/// What an answer shows: its refusal, or each thing present in its record and how many were skipped.
fn shown(message: Message, call: &str, answer: &Answer) -> BTreeSet<String> {
    let what = match answer {
        Ok(read) => things(read),
        Err(number) => BTreeSet::from([number.to_string()]),
    };
    what.into_iter().map(|what| format!("{message:?} {call} {what}")).collect()
}

/// The names of the fields that are present, by the record's debug form.
fn things(read: &Read) -> BTreeSet<String> {
    let text = format!("{:?}", read.record);
    let mut things: BTreeSet<String> = text
        .split(": Some(")
        .map(|before| before.rsplit([' ', '(']).next().unwrap_or_default().to_owned())
        .collect();
    let groups = match &read.record {
        Record::Demand(r) => r
            .group_identity_location_demand
            .as_ref()
            .and_then(|l| l.group_identity_uplink.as_ref().map(Vec::len)),
        Record::Accept(r) => r
            .group_identity_location_accept
            .as_ref()
            .and_then(|l| l.group_identity_downlink.as_ref().map(Vec::len)),
        Record::AttachDetach(r) => r.group_identity_downlink.as_ref().map(Vec::len),
    };
    things.extend(groups.map(|count| format!("{} groups", count.min(3))));
    things.insert(format!("{} skipped", read.skipped.min(4)));
    things
}

/// 64 bits wide.
fn fnv1a(octets: &[u8]) -> u64 {
    let step = |hash: u64, &octet: &u8| (hash ^ u64::from(octet)).wrapping_mul(0x100_0000_01b3);
    octets.iter().fold(0xcbf2_9ce4_8422_2325, step)
}
