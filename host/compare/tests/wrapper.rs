//! The wrapper's `read` and `rewrite` give what the original gives, as a whole.

use compare::judge;
use compare::random::Random;
use compare::rewriting::{self, Outcome};
use compare::window::Window;
use compare::windows::{self, Drawn};
use tetra_mm::{Reading, read, rewrite};

#[test]
fn reads_as_the_original() {
    let mut random = Random::new(3);
    for _ in 0..20_000 {
        let Drawn::Window(message, window) = windows::draw(&mut random) else {
            continue;
        };
        let strict = judge::strict(message, &window).answer;
        let skipping = judge::skipping(message, &window).0.answer;
        for (reading, answer) in [(Reading::Strict, strict), (Reading::Skipping, skipping)] {
            let got = read(message, reading, &window.octets, window.first, window.end);
            assert_eq!(got, answer, "{message:?}, {reading:?}, {window:02x?}");
        }
    }
}

#[test]
fn rewrites_as_the_original() {
    let mut random = Random::new(4);
    let mut written = 0;
    for _ in 0..20_000 {
        let Drawn::Window(message, window) = windows::draw(&mut random) else {
            continue;
        };
        let Window { octets, first, end } = &window;
        let (out_first, before) = (random.below(20), vec![0x96; 600]);
        let mut out = before.clone();
        let got = rewrite(message, octets, *first, *end, &mut out, out_first, 4800);
        match rewriting::judge(&judge::original(message, &window)).outcome {
            Outcome::Unread(number) | Outcome::Unwritten(number) => {
                assert_eq!(got, Err(number), "{message:?}, {window:02x?}");
                assert_eq!(out, before, "{message:?}, {window:02x?}");
            }
            Outcome::Written(bits) => {
                assert_eq!(got, Ok(bits.len()), "{message:?}, {window:02x?}");
                let after = Window::laid(&bits, out_first, before).octets;
                assert_eq!(out, after, "{message:?}, {window:02x?}");
                written += 1;
            }
        }
    }
    assert!(written > 2000);
}
