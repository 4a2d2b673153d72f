//! The walk on windows that were walked by hand.

use compare::walk::{End, Walk, walk};
use tetra_mm::Message;

fn bits(text: &str) -> Vec<bool> {
    text.bytes().filter(|&b| b != b' ').map(|b| b == b'1').collect()
}

#[test]
fn walks() {
    let unlisted = "1 1101 00000000011 101";
    let listed = "1 1001 00000000001 1";
    for (text, expected) in [
        ("0010 011 0 0 0", Walk { unlisted: vec![], end: End::Closed(10) }),
        ("1111 011 0 0 1 00000 0", Walk { unlisted: vec![], end: End::Closed(15) }),
        ("0010 011 0 1 1111111111 0", Walk { unlisted: vec![], end: End::Closed(20) }),
        ("0010 011 0 0", Walk { unlisted: vec![], end: End::LeftHead }),
        ("0010 011 0 0 1 0001 000", Walk { unlisted: vec![], end: End::LeftHead }),
        (
            "0010 011 0 0 1 00000",
            Walk { unlisted: vec![], end: End::Left { start: 15, listed: false } },
        ),
        (
            "0010 011 0 0 1 00000 1 1001 0000",
            Walk { unlisted: vec![], end: End::Left { start: 15, listed: true } },
        ),
        (
            &format!("0010 011 0 0 1 00000 {unlisted} 0"),
            Walk { unlisted: vec![15..34], end: End::Closed(34) },
        ),
        (
            &format!("0010 011 0 0 1 00000 {unlisted} {listed} {unlisted} 1 110"),
            Walk { unlisted: vec![15..34, 51..70], end: End::Left { start: 70, listed: false } },
        ),
    ] {
        assert_eq!(walk(Message::Demand, &bits(text)), expected, "{text}");
    }
}
