//! The original's writing, and document 01's questions asked of its records, against answers worked
//! from the paper.

use oracle::written::{Trial, trials};
use oracle::{read, write};

/// What the original writes though document 01 has it refused.
const WRITTEN_ALL_THE_SAME: [&str; 5] = [
    "demand, version 8",
    "demand, LA 2^63",
    "demand, cipher control without ciphering",
    "demand, ciphering without cipher control",
    "uplink, extension and VGSSI",
];

#[test]
fn the_questions_give_the_papers_numbers() {
    for Trial { name, record, answer, .. } in trials() {
        let number = answer.err().filter(|&number| number < 16);
        assert_eq!(record.write_refusal(), number, "{name}");
    }
}

#[test]
fn the_original_writes_what_passes_the_questions() {
    let mut written_all_the_same = vec![];
    for Trial { name, record, room, answer } in trials() {
        let written = write(&record, &vec![0; room.div_ceil(8)], 0, room);
        match (answer, written) {
            (Ok(bits), Ok(written)) => {
                assert_eq!(written.bits, bits, "{name}");
                let message = record.message() as u64;
                let back = read(message, &written.octets, 0, bits).expect("a message");
                assert_eq!(format!("{:?}", back.record), format!("{record:?}"), "{name}");
                assert_eq!(back.consumed, bits, "{name}");
            }
            (Err(_), Ok(_)) => written_all_the_same.push(name),
            (Err(number), Err(fault)) => {
                // In another order, but never before the paper's number.
                let own = fault.write_refusal();
                assert!(own.is_some_and(|own| own >= number), "{name}: {fault:?}");
            }
            (Ok(_), Err(fault)) => panic!("{name}: {fault:?}"),
        }
    }
    assert_eq!(written_all_the_same, WRITTEN_ALL_THE_SAME);
}

#[test]
fn each_question_has_its_trial() {
    for number in 8..=16 {
        assert!(trials().iter().any(|trial| trial.answer == Err(number)), "{number}");
    }
}
