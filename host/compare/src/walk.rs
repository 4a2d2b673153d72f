//! Document 01's walk: it rests on the window's bits and the message's type number alone.

use std::ops::Range;

use tetra_mm::Message;

#[derive(Debug, PartialEq, Eq)]
pub struct Walk {
    /// Where the unlisted elements stand that are whole inside the window.
    pub unlisted: Vec<Range<usize>>,
    pub end: End,
}

#[derive(Debug, PartialEq, Eq)]
pub enum End {
    /// By an O-bit of 0, or by a closing M-bit at this bit.
    Closed(usize),
    /// It left the window before the first M-bit.
    LeftHead,
    /// It left the window in the element at this bit.
    Left {
        start: usize,
        /// The identifier is inside and in the table.
        listed: bool,
    },
}

pub fn identifiers(message: Message) -> &'static [u64] {
    match message {
        Message::Demand => &[3, 4, 9, 11, 15],
        Message::Accept => &[2, 3, 5, 1, 10, 12, 13, 15],
        Message::AttachDetach => &[15, 4, 7, 12],
    }
}

pub fn type2_widths(message: Message) -> &'static [usize] {
    match message {
        Message::Demand => &[24, 3, 15, 24, 24],
        Message::Accept => &[24, 24, 16, 14, 6],
        Message::AttachDetach => &[],
    }
}

pub fn walk(message: Message, bits: &[bool]) -> Walk {
    let mut walker = Walker { bits, at: 0 };
    let mut unlisted = vec![];
    let end = match walker.head(message) {
        None => End::LeftHead,
        Some(false) => End::Closed(walker.at),
        Some(true) => loop {
            let start = walker.at;
            match walker.element(message) {
                Step::Whole { listed: false } => unlisted.push(start..walker.at),
                Step::Whole { listed: true } => {}
                Step::Closing => break End::Closed(start),
                Step::Left { listed } => break End::Left { start, listed },
            }
        },
    };
    Walk { unlisted, end }
}

enum Step {
    Whole { listed: bool },
    Closing,
    Left { listed: bool },
}

struct Walker<'a> {
    bits: &'a [bool],
    at: usize,
}

impl Walker<'_> {
    /// The number in the next bits, if they are inside the window.
    fn take(&mut self, width: usize) -> Option<u64> {
        let bits = self.bits.get(self.at..self.at + width)?;
        self.at += width;
        Some(bits.iter().fold(0, |number, &bit| number << 1 | u64::from(bit)))
    }

    fn pass(&mut self, width: usize) -> Option<()> {
        self.at += width;
        (self.at <= self.bits.len()).then_some(())
    }

    /// Passes what stands before the first M-bit, and gives the O-bit.
    fn head(&mut self, message: Message) -> Option<bool> {
        self.pass(4)?;
        match message {
            Message::Demand => {
                self.pass(4)?;
                if self.take(1)? == 1 {
                    self.pass(10)?;
                }
            }
            Message::Accept | Message::AttachDetach => self.pass(3)?,
        }
        if self.take(1)? == 0 {
            return Some(false);
        }
        for &width in type2_widths(message) {
            if self.take(1)? == 1 {
                self.pass(width)?;
            }
        }
        Some(true)
    }

    fn element(&mut self, message: Message) -> Step {
        match self.take(1) {
            None => return Step::Left { listed: false },
            Some(0) => return Step::Closing,
            Some(_) => {}
        }
        let Some(identifier) = self.take(4) else {
            return Step::Left { listed: false };
        };
        let listed = identifiers(message).contains(&identifier);
        match self.take(11).and_then(|length| self.pass(length as usize)) {
            Some(()) => Step::Whole { listed },
            None => Step::Left { listed },
        }
    }
}
