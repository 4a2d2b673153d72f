//! The original against ours: `bench fields` times one field, `bench messages` one message read
//! into a record, `bench flat` one message read into the flat form, `bench writing` one record written,
//! `bench rewriting` one message read and written.

mod fields;
mod flat;
mod messages;
mod writing;

fn main() {
    match std::env::args().nth(1).as_deref() {
        Some("fields") => fields::print(),
        Some("messages") => messages::print::<messages::IntoRecord>(),
        Some("flat") => messages::print::<flat::IntoFlat>(),
        Some("writing") => messages::print::<writing::FromRecord>(),
        Some("rewriting") => messages::print::<writing::Rewritten>(),
        _ => panic!("usage: bench fields | messages | flat | writing | rewriting"),
    }
}
