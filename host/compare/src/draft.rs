//! Messages drawn by the grammar, right or with faults.

use tetra_mm::Message;

use crate::random::Random;
use crate::walk::{identifiers, type2_widths};
use crate::window::push;

/// What an element that the table lists holds.
#[derive(Clone, Copy, Debug, PartialEq, Eq)]
pub enum Kind {
    Type3,
    Type4,
    LocationDemand,
    LocationAccept,
    Downlinks,
}

pub fn kind(message: Message, identifier: u64) -> Kind {
    match (message, identifier) {
        (Message::Demand, 3) => Kind::LocationDemand,
        (Message::Accept, 5) => Kind::LocationAccept,
        (Message::Accept, 2 | 12) | (Message::AttachDetach, 12) => Kind::Type4,
        (Message::AttachDetach, 7) => Kind::Downlinks,
        _ => Kind::Type3,
    }
}

/// Lengths around which something changes.
pub const LENGTHS: [usize; 24] = [
    0, 1, 2, 3, 5, 6, 7, 8, 62, 63, 64, 65, 66, 69, 70, 71, 72, 127, 128, 200, 2040, 2041, 2046,
    2047,
];

#[derive(Clone, Debug)]
pub struct Element {
    pub identifier: u64,
    /// As declared.
    pub length: u64,
    pub content: Vec<bool>,
}

impl Element {
    pub fn new(identifier: u64, content: Vec<bool>) -> Self {
        Self { identifier, length: content.len() as u64 % 2048, content }
    }

    fn put(&self, bits: &mut Vec<bool>) {
        bits.push(true);
        push(bits, self.identifier, 4);
        push(bits, self.length, 11);
        bits.extend(&self.content);
    }
}

#[derive(Clone, Debug)]
pub struct Draft {
    pub message: Message,
    pub head: Vec<bool>,
    pub elements: Vec<Element>,
    pub closing: bool,
    /// Without an O-bit of 1 nothing follows the head.
    pub optional: bool,
}

impl Draft {
    /// A head with these type 2 elements (a bit each), no elements behind it.
    pub fn new(message: Message, type2: usize, random: &mut Random) -> Self {
        let mut head = vec![];
        push(&mut head, message as u64, 4);
        head.extend(random.bits(3));
        if message == Message::Demand {
            head.extend(random.bits(1));
            let cipher = random.one_in(3);
            head.push(cipher);
            if cipher {
                head.extend(random.bits(10));
            }
        }
        head.push(true);
        for (at, &width) in type2_widths(message).iter().enumerate() {
            let present = type2 >> at & 1 == 1;
            head.push(present);
            if present {
                head.extend(random.bits(width));
            }
        }
        Self { message, head, elements: vec![], closing: false, optional: true }
    }

    /// With these of the listed elements (a bit each), in the table's order.
    pub fn listed(mut self, listed: usize, random: &mut Random) -> Self {
        for (at, &identifier) in identifiers(self.message).iter().enumerate() {
            if listed >> at & 1 == 1 {
                self.elements.push(element(self.message, identifier, false, random));
            }
        }
        self
    }

    /// With unlisted elements anywhere among the others.
    pub fn unlisted(mut self, count: usize, random: &mut Random) -> Self {
        for _ in 0..count {
            let element = Element::new(unlisted_identifier(self.message, random), generic(random));
            self.elements.insert(random.below(self.elements.len() + 1), element);
        }
        self
    }

    pub fn any(message: Message, random: &mut Random) -> Self {
        let (type2, listed) = (random.next() as usize, random.next() as usize);
        // Few elements as often as many.
        let fewer = random.next() as usize | if random.one_in(2) { usize::MAX } else { 0 };
        Self::new(message, type2, random).listed(listed & fewer, random)
    }

    /// With one fault, or what may be one.
    pub fn fault(&mut self, random: &mut Random) {
        let count = self.elements.len();
        match random.below(10) {
            0 => {
                let other = random.next();
                let mut head = vec![];
                push(&mut head, other, 4);
                self.head[..4].copy_from_slice(&head);
            }
            1 => self.closing = true,
            2 => {
                // An O-bit of 0, whatever follows.
                self.optional = random.one_in(2);
                let o_bit = match (self.message, self.head.get(8)) {
                    (Message::Demand, Some(true)) => 19,
                    (Message::Demand, _) => 9,
                    _ => 7,
                };
                self.head.truncate(o_bit);
                self.head.push(false);
            }
            3 if count > 0 => {
                let element = &mut self.elements[random.below(count)];
                element.length = match random.below(5) {
                    0 => element.length.wrapping_add(1) % 2048,
                    1 => element.length.wrapping_sub(1) % 2048,
                    2 => random.next() % 8,
                    3 => (element.length + random.next() % 80) % 2048,
                    _ => random.next() % 2048,
                };
            }
            4 if count > 0 => {
                // Repeated, somewhere.
                let element = self.elements[random.below(count)].clone();
                self.elements.insert(random.below(count + 1), element);
            }
            5 if count > 1 => self.elements.swap(random.below(count), random.below(count)),
            6 if count > 0 => {
                let at = random.below(count);
                self.elements[at].identifier = random.next() % 16;
            }
            7 => {
                let identifier = random.pick(identifiers(self.message));
                let element = element(self.message, identifier, true, random);
                self.elements.insert(random.below(count + 1), element);
            }
            8 if count > 0 => {
                let at = random.below(count);
                let identifier = self.elements[at].identifier;
                self.elements[at] = if identifiers(self.message).contains(&identifier) {
                    element(self.message, identifier, true, random)
                } else {
                    Element::new(identifier, generic(random))
                };
            }
            _ => {
                let mut element =
                    Element::new(unlisted_identifier(self.message, random), generic(random));
                if random.one_in(3) {
                    element.length = random.next() % 2048;
                }
                self.elements.insert(random.below(count + 1), element);
            }
        }
    }

    pub fn bits(&self) -> Vec<bool> {
        let mut bits = self.head.clone();
        if self.optional {
            for element in &self.elements {
                element.put(&mut bits);
            }
            bits.push(self.closing);
        }
        bits
    }
}

pub fn unlisted_identifier(message: Message, random: &mut Random) -> u64 {
    loop {
        let identifier = random.next() % 16;
        if !identifiers(message).contains(&identifier) {
            return identifier;
        }
    }
}

/// The content of a generic element; long ones are rare.
fn generic(random: &mut Random) -> Vec<bool> {
    let length = match random.below(40) {
        0 => random.pick(&LENGTHS),
        1 => random.below(2048),
        2..12 => random.pick(&LENGTHS[..16]),
        _ => random.below(24),
    };
    random.bits(length)
}

fn element(message: Message, identifier: u64, faulty: bool, random: &mut Random) -> Element {
    let groups = match random.below(16) {
        0 => random.below(64),
        _ => random.below(4),
    };
    element_with_groups(message, identifier, groups, None, faulty, random)
}

/// A listed element; its list, if it has one, with so many groups as fit, of this form or of any.
pub fn element_with_groups(
    message: Message,
    identifier: u64,
    groups: usize,
    form: Option<u64>,
    faulty: bool,
    random: &mut Random,
) -> Element {
    let kind = kind(message, identifier);
    let mut content = vec![];
    match kind {
        Kind::Type3 => content = generic(random),
        Kind::Type4 => {
            let mut data = generic(random);
            data.truncate(2041);
            content = random.bits(6);
            content.extend(data);
        }
        Kind::Downlinks => {
            let list = list(7, groups, 2047, form, faulty, random);
            content = list.content;
            return Element { identifier, length: list.length, content };
        }
        Kind::LocationDemand | Kind::LocationAccept => {
            let demand = kind == Kind::LocationDemand;
            if demand {
                content.push(faulty && random.one_in(4));
                content.extend(random.bits(1));
            } else {
                content.extend(random.bits(2));
            }
            let optional = form.is_some() || !random.one_in(4);
            content.push(optional);
            if optional {
                if form.is_some() || !random.one_in(6) {
                    let mut nested =
                        list(if demand { 8 } else { 7 }, groups, 2027, form, faulty, random);
                    if faulty && random.one_in(4) {
                        nested.identifier = random.next() % 16;
                    }
                    nested.put(&mut content);
                    if faulty && random.one_in(6) {
                        nested.put(&mut content);
                    }
                }
                content.push(faulty && random.one_in(4));
            }
        }
    }
    let mut element = Element::new(identifier, content);
    if faulty && random.one_in(4) {
        element.length = (element.length + random.pick(&[1, 2, 2047, 2046, 16])) % 2048;
    }
    element
}

fn list(
    identifier: u64,
    groups: usize,
    most: usize,
    form: Option<u64>,
    faulty: bool,
    random: &mut Random,
) -> Element {
    let mut drawn: Vec<Vec<bool>> =
        (0..groups).map(|_| group(identifier == 8, form, random)).collect();
    while !faulty && 6 + drawn.iter().map(Vec::len).sum::<usize>() > most {
        drawn.pop();
    }
    let mut count = drawn.len() as u64;
    if faulty && random.one_in(4) {
        let any = random.next();
        count = random.pick(&[count + 1, count + 63, any]) % 64;
    }
    let mut content = vec![];
    push(&mut content, count, 6);
    content.extend(drawn.concat());
    let mut list = Element::new(identifier, content);
    if faulty && random.one_in(3) {
        list.length = match random.below(3) {
            0 => random.next() % 8,
            1 => (list.length + 1) % 2048,
            _ => list.length.wrapping_sub(1) % 2048,
        };
    }
    list
}

/// The forms of a group: attached or detached, and four address types.
pub const FORMS: u64 = 8;

fn group(uplink: bool, form: Option<u64>, random: &mut Random) -> Vec<bool> {
    let form = form.unwrap_or_else(|| random.next() % FORMS);
    let (detached, address) = (form / 4 == 1, form % 4);
    let mut bits = vec![detached];
    bits.extend(random.bits(match (detached, uplink) {
        (true, _) => 2,
        (false, true) => 3,
        (false, false) => 5,
    }));
    push(&mut bits, address, 2);
    bits.extend(random.bits(match (address, uplink) {
        (0 | 2, _) => 24,
        (1, _) => 48,
        (_, true) => 0,
        (_, false) => 72,
    }));
    bits
}
