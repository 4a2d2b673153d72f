//! Bits, and windows of octets that hold them.

use crate::random::Random;

pub fn push(bits: &mut Vec<bool>, value: u64, width: usize) {
    bits.extend((0..width).rev().map(|at| value >> at & 1 == 1));
}

#[derive(Clone, Debug, PartialEq, Eq)]
pub struct Window {
    pub octets: Vec<u8>,
    pub first: usize,
    pub end: usize,
}

impl Window {
    /// The bits at the front of octets that just hold them.
    pub fn exact(bits: &[bool]) -> Self {
        Self::laid(bits, 0, vec![0; bits.len().div_ceil(8)])
    }

    /// The bits somewhere in random octets.
    pub fn placed(bits: &[bool], random: &mut Random) -> Self {
        let (lead, tail) = (random.below(20), random.below(20));
        let octets = (0..(lead + bits.len() + tail).div_ceil(8)).map(|_| random.next() as u8);
        Self::laid(bits, lead, octets.collect())
    }

    /// The bits at `first` of the octets.
    pub fn laid(bits: &[bool], first: usize, mut octets: Vec<u8>) -> Self {
        for (at, &bit) in (first..).zip(bits) {
            let mask = 0x80 >> (at % 8);
            if bit {
                octets[at / 8] |= mask;
            } else {
                octets[at / 8] &= !mask;
            }
        }
        Self { octets, first, end: first + bits.len() }
    }

    pub fn bits(&self) -> Vec<bool> {
        (self.first..self.end).map(|at| self.octets[at / 8] << (at % 8) & 0x80 != 0).collect()
    }
}

/// Runs of up to so many bits are tried in every length and at every place.
const FEW: usize = 80;

/// A small window that still shows what this one shows: bits are left out and cleared for as long as
/// `shows` holds.
pub fn shrink(window: &Window, shows: impl Fn(&Window) -> bool) -> Window {
    let mut bits = window.bits();
    let (first, octets) = match Window::exact(&bits) {
        exact if shows(&exact) => (0, vec![]),
        _ => (window.first, window.octets.clone()),
    };
    // Around the bits stay the octets that stood there.
    let build = |bits: &[bool]| {
        let behind = octets.get(window.end.div_ceil(8)..).unwrap_or_default();
        let mut built = octets[..first.div_ceil(8)].to_vec();
        built.resize((first + bits.len()).div_ceil(8), 0);
        built.extend(behind);
        Window::laid(bits, first, built)
    };
    if !shows(&build(&bits)) {
        return window.clone();
    }
    loop {
        let before = bits.clone();
        let mut size = bits.len();
        while size > 0 {
            let mut at = bits.len().saturating_sub(size);
            while at + size <= bits.len() {
                let mut fewer = bits.clone();
                fewer.drain(at..at + size);
                // With the bit before them cleared, in case it said that they are there.
                let mut cleared = fewer.clone();
                if let Some(bit) = cleared[..at].last_mut() {
                    *bit = false;
                }
                if let Some(less) = [fewer, cleared].into_iter().find(|bits| shows(&build(bits))) {
                    bits = less;
                }
                let Some(next) = at.checked_sub(if size > FEW { size } else { 1 }) else {
                    break;
                };
                at = next;
            }
            size = if size > FEW { size / 2 } else { size - 1 };
        }
        for at in 0..bits.len() {
            if bits[at] {
                bits[at] = false;
                bits[at] = !shows(&build(&bits));
            }
        }
        if bits == before {
            return build(&bits);
        }
    }
}
