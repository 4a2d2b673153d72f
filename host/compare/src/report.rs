//! What was compared: coverage, departures, differences.

use std::fmt::Write;

use tetra_mm::{Message, Reading};

use crate::check::{Call, Checker, Library};
use crate::judge::{self, Answer, Departure, Judged};
use crate::random::Random;
use crate::rewriting::{self, Outcome, Output};
use crate::window::{self, Window};

const MESSAGES: [(u64, &str); 4] =
    [(2, "demand"), (5, "accept"), (10, "attach/detach"), (u64::MAX, "unknown")];
const CALLS: [&str; 4] = ["strict", "skipping", "unknown", "rewriting"];
const REWRITING: usize = 3;
const ANSWERS: [&str; 12] = ["accepted", "1", "2", "3", "4", "5", "6", "7", "8", "11", "14", "16"];

/// Differences that are shrunk and printed; the others are only counted.
const PRINTED: usize = 10;

/// Of the outputs that are drawn for rewriting.
const OUTPUTS: u64 = 22_10;

fn row(message: u64) -> usize {
    MESSAGES.iter().position(|&(known, _)| known == message).unwrap_or(MESSAGES.len() - 1)
}

fn reading_column(reading: u64) -> usize {
    reading.min(2) as usize
}

type Check = Result<(), String>;

pub struct Report {
    library: Library,
    checker: Checker,
    rewriting: rewriting::Checker,
    outputs: Random,
    compared: u64,
    differ: u64,
    printed: usize,
    coverage: [[[u64; ANSWERS.len()]; CALLS.len()]; MESSAGES.len()],
    skipped: [u64; 4],
    departures: [u64; Departure::ALL.len()],
    /// The smallest window met of each departure that rests on the window's bits.
    smallest: [Option<(Message, Window)>; Departure::ALL.len()],
}

impl Report {
    pub fn new(library: Library) -> Self {
        Self {
            library,
            checker: Checker::new(library.read),
            rewriting: rewriting::Checker::new(library.rewrite),
            outputs: Random::new(OUTPUTS),
            compared: 0,
            differ: 0,
            printed: 0,
            coverage: Default::default(),
            skipped: Default::default(),
            departures: Default::default(),
            smallest: Default::default(),
        }
    }

    pub fn compared(&self) -> u64 {
        self.compared
    }

    pub fn differ(&self) -> u64 {
        self.differ
    }

    /// Holds both readings and the rewriting of a window that passes question 1 against the original.
    pub fn window(&mut self, message: Message, window: &Window) {
        self.compared += 1;
        let original = judge::original(message, window);
        let checks = self.checker.window(message, window, &original);
        let mut differs = false;
        for ((judged, check), reading) in
            checks.into_iter().zip([Reading::Strict, Reading::Skipping])
        {
            self.cover(message as u64, reading as u64, &judged);
            if let Some(departure) = judged.departure {
                self.depart(departure, message, window);
            }
            if let Ok(read) = &judged.answer
                && reading == Reading::Skipping
            {
                self.skipped[read.skipped.min(3)] += 1;
            }
            if check.is_err() {
                differs = true;
                self.print_difference(message, reading, window);
            }
        }

        let output = Output::drawn(&mut self.outputs);
        let judged = rewriting::judge(&original);
        let check = self.rewriting.window(message, window, &judged.outcome, &output);
        self.cover_rewriting(message as u64, &judged.outcome);
        for departure in judged.departures {
            self.count(departure);
            self.depart(departure, message, window);
        }
        if check.is_err() {
            differs = true;
            self.print_rewriting(message, window, &output);
        }
        self.differ += u64::from(differs);
    }

    /// Holds a call that question 1 refuses against 1.
    pub fn limits(&mut self, call: Call, octets: &[u8]) {
        self.compared += 1;
        let (judged, check) = self.checker.limits(call, octets);
        self.cover(call.message, call.reading, &judged);
        let Call { message, reading, first, end } = call;
        if let Err(what) = check {
            self.differ += 1;
            let count = octets.len();
            println!(
                "differs: message {message}, reading {reading}, {count} octets, bits {first}..{end}: {what}, not 1"
            );
        }
    }

    /// Holds one rewriting against a result and the output's octets afterwards.
    pub fn rewriting(
        &mut self,
        call: rewriting::Call,
        octets: &[u8],
        before: &[u8],
        result: u64,
        after: &[u8],
    ) {
        self.compared += 1;
        self.cover_number(call.message, result % 64);
        if let Err(what) = self.rewriting.answers(call, octets, before, result, after) {
            self.differ += 1;
            println!("differs: rewriting, {} octets, {call:?}: {what}", octets.len());
        }
    }

    /// Holds a rewriting that question 1 of the input or of the output refuses against 1.
    pub fn rewriting_limits(&mut self, call: rewriting::Call, octets: &[u8], out: &[u8]) {
        let (first, end) = (call.out_first as usize, call.out_end as usize);
        self.count(match oracle::is_window(out.len(), first, end) {
            true => Departure::Limits,
            false => Departure::OutputLimits,
        });
        self.rewriting(call, octets, out, 1, out);
    }

    fn count(&mut self, departure: Departure) {
        self.departures[departure as usize] += 1;
    }

    /// Keeps the window if it is the smallest that shows this.
    fn depart(&mut self, departure: Departure, message: Message, window: &Window) {
        let smallest = &mut self.smallest[departure as usize];
        let size = |window: &Window| window.end - window.first;
        if smallest.as_ref().is_none_or(|(_, least)| size(window) < size(least)) {
            *smallest = Some((message, window.clone()));
        }
    }

    fn cover(&mut self, message: u64, reading: u64, judged: &Judged) {
        let answers = &mut self.coverage[row(message)][reading_column(reading)];
        match judged.answer {
            Ok(_) => {
                answers[0] += 1;
                // Each is read again with a buffer that is one octet too short.
                answers[ANSWERS.len() - 1] += 1;
            }
            Err(number) if (1..=7).contains(&number) => answers[usize::from(number)] += 1,
            Err(_) => {}
        }
        if let Some(departure) = judged.departure {
            self.count(departure);
        }
    }

    fn cover_rewriting(&mut self, message: u64, outcome: &Outcome) {
        match outcome {
            Outcome::Unread(number) => return self.cover_number(message, (*number).into()),
            Outcome::Unwritten(number) => self.cover_number(message, (*number).into()),
            Outcome::Written(_) => {
                self.cover_number(message, 0);
                // Each is rewritten again in a window that is one bit too short.
                self.cover_number(message, 16);
            }
        }
        // And to an output that fails question 1.
        self.cover_number(message, 1);
        self.count(Departure::OutputLimits);
    }

    /// Counts a rewriting's refusal, or 0.
    fn cover_number(&mut self, message: u64, number: u64) {
        let answer = match number {
            0 => ANSWERS[0].to_owned(),
            _ => number.to_string(),
        };
        if let Some(at) = ANSWERS.iter().position(|&known| known == answer) {
            self.coverage[row(message)][REWRITING][at] += 1;
        }
    }

    fn print_difference(&mut self, message: Message, reading: Reading, window: &Window) {
        let library = self.library.read;
        self.print(message, window, &format!("{reading:?}"), |window| {
            let original = judge::original(message, window);
            let [strict, skipping] = Checker::new(library).window(message, window, &original);
            let (judged, check) = if reading == Reading::Strict { strict } else { skipping };
            (shown_answer(&judged.answer), check)
        });
    }

    fn print_rewriting(&mut self, message: Message, window: &Window, output: &Output) {
        let checker = rewriting::Checker::new(self.library.rewrite);
        self.print(message, window, "rewriting", |window| {
            let judged = rewriting::judge(&judge::original(message, window));
            let check = checker.window(message, window, &judged.outcome, output);
            (shown_outcome(&judged.outcome), check)
        });
    }

    /// A small window that differs, by what the original says and what `check` gives.
    fn print(
        &mut self,
        message: Message,
        window: &Window,
        call: &str,
        check: impl Fn(&Window) -> (String, Check),
    ) {
        self.printed += 1;
        if self.printed > PRINTED {
            return;
        }
        let small = window::shrink(window, |window| check(window).1.is_err());
        let (original, what) = check(&small);
        println!("differs: {}, {call}", shown_window(message, &small));
        println!("  the original: {original}");
        println!("  the library: {}", what.err().unwrap_or_default());
    }

    /// The table, the departures, and the last line.
    pub fn text(&self) -> String {
        let mut text = String::new();
        write!(text, "{:14}{:9}", "message", "call").unwrap();
        for answer in ANSWERS {
            write!(text, "{answer:>10}").unwrap();
        }
        text.push('\n');
        for (message, rows) in MESSAGES.iter().zip(&self.coverage) {
            for (call, answers) in CALLS.iter().zip(rows) {
                if answers.iter().sum::<u64>() == 0 {
                    continue;
                }
                write!(text, "{:14}{call:9}", message.1).unwrap();
                for answer in answers {
                    write!(text, "{answer:>10}").unwrap();
                }
                text.push('\n');
            }
        }
        let [none, one, two, more] = self.skipped;
        writeln!(text, "records of the skipping reading by elements skipped: none {none}, one {one}, two {two}, more {more}")
            .unwrap();
        writeln!(text, "departures from the original:").unwrap();
        for departure in Departure::ALL {
            let count = self.departures[departure as usize];
            write!(text, "{count:>10}  {}", departure.name()).unwrap();
            if let Some((message, window)) = &self.smallest[departure as usize] {
                let shows = |window: &Window| {
                    let original = judge::original(*message, window);
                    judge::strict_of(&original).departure == Some(departure)
                        || judge::skipping(*message, window).0.departure == Some(departure)
                        || rewriting::judge(&original).departures.contains(&departure)
                };
                let small = window::shrink(window, shows);
                write!(text, "; smallest: {}", shown_window(*message, &small)).unwrap();
            }
            text.push('\n');
        }
        writeln!(text, "{} compared, {} differ", self.compared, self.differ).unwrap();
        text
    }
}

fn shown_window(message: Message, window: &Window) -> String {
    let Window { octets, first, end } = window;
    format!("message {}, octets {}, bits {first}..{end}", message as u64, shown_octets(octets))
}

fn shown_octets(octets: &[u8]) -> String {
    let octets: Vec<String> = octets.iter().map(|octet| format!("{octet:02X}")).collect();
    octets.join(" ")
}

fn shown_answer(answer: &Answer) -> String {
    match answer {
        Ok(read) => format!("{read:?}"),
        Err(judge::UNKNOWN) => "what document 01 knows no number for".to_owned(),
        Err(number) => format!("refusal {number}"),
    }
}

fn shown_outcome(outcome: &Outcome) -> String {
    match outcome {
        Outcome::Unread(number) => format!("{} of the reading", shown_answer(&Err(*number))),
        Outcome::Unwritten(number) => format!("{} of the writing", shown_answer(&Err(*number))),
        Outcome::Written(bits) => {
            let octets = shown_octets(&Window::exact(bits).octets);
            format!("octets {octets}, {} bits", bits.len())
        }
    }
}
