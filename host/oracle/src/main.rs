//! One strict reading by the original: MESSAGE OCTETS FIRST END, the octets in hexadecimal.

use std::process::ExitCode;

fn main() -> ExitCode {
    let arguments: Vec<String> = std::env::args().skip(1).collect();
    let Some((message, octets, first, end)) = parse(&arguments) else {
        eprintln!("usage: oracle MESSAGE OCTETS FIRST END, as in: oracle 2 '26 00' 0 10");
        return ExitCode::from(2);
    };
    match oracle::read(message, &octets, first, end) {
        Ok(read) => println!("{:#?}\n{} bits consumed", read.record, read.consumed),
        Err(number) => println!("refusal {number}"),
    }
    ExitCode::SUCCESS
}

fn parse(arguments: &[String]) -> Option<(u64, Vec<u8>, usize, usize)> {
    let [message, octets, first, end] = arguments else {
        return None;
    };
    Some((message.parse().ok()?, parse_hex(octets)?, first.parse().ok()?, end.parse().ok()?))
}

/// Two digits to an octet; white space is passed over.
fn parse_hex(text: &str) -> Option<Vec<u8>> {
    let digits: Vec<u8> = text
        .chars()
        .filter(|c| !c.is_whitespace())
        .map(|c| c.to_digit(16).map(|digit| digit as u8))
        .collect::<Option<_>>()?;
    let (pairs, odd) = digits.as_chunks::<2>();
    odd.is_empty().then(|| pairs.iter().map(|[high, low]| 16 * high + low).collect())
}
