//! The outcomes of a stripe's phases, as words.
use super::super::script::{first_word, number, reply, value, value_or_none};
use jc_model::{Change, Reply};
use jc_stripe::First;
use jc_types::Refusal;
use std::process::Abort;

/// The outcome of a phase.
#[derive(Clone, Copy, Debug, PartialEq)]
pub enum Seen {
    /// The step's reply and its place.
    Step(Reply, u32),
    /// The step's reply, its place, and the place of the load that it shares.
    Shared(Reply, u32, u32),
    Asks(First),
    /// The call whose load is joined.
    Joins(u64),
    Refused(Refusal),
    Dropped,
    Waits,
    Again,
    Full,
    Shut,
    Misuse,
    Flag(bool),
}

fn first(rt: &impl Abort, text: &str) -> First {
    let (word, rest) = first_word(text);
    match word {
        "loader" => First::Loader,
        "write" => First::Writer(Change::Write(value(rt, rest))),
        "delete" => First::Writer(Change::Delete),
        "process" => {
            let (word, rest) = first_word(rest);
            First::Processor {
                entry: value_or_none(rt, word),
                may_load: rest == "loading",
            }
        }
        _ => panic!(rt; "nobody to ask"),
    }
}

fn refusal(rt: &impl Abort, word: &str) -> Refusal {
    match word {
        "Busy" => Refusal::Busy,
        "HistoryFull" => Refusal::HistoryFull,
        "TooManyInFlight" => Refusal::TooManyInFlight,
        "TooManyJoiners" => Refusal::TooManyJoiners,
        _ => panic!(rt; "no refusal"),
    }
}

/// A reply, its place, and that of the load that it shares, if it shares one.
fn step(rt: &impl Abort, text: &str) -> Seen {
    let (replied, place) = text.split_once(" at ").expect(rt, text);
    let replied = reply(rt, replied);
    match place.split_once(" shared ") {
        Some((place, load)) => Seen::Shared(replied, number(rt, place), number(rt, load)),
        None => Seen::Step(replied, number(rt, place)),
    }
}

/// The outcome that a text names.
pub fn seen_of(rt: &impl Abort, text: &str) -> Seen {
    let (word, rest) = first_word(text);
    match word {
        "asks" => Seen::Asks(first(rt, rest)),
        "joins" => Seen::Joins(u64::from(number(rt, rest))),
        "refused" => Seen::Refused(refusal(rt, rest)),
        "dropped" => Seen::Dropped,
        "waits" => Seen::Waits,
        "again" => Seen::Again,
        "full" => Seen::Full,
        "shut" => Seen::Shut,
        "misuse" => Seen::Misuse,
        "yes" => Seen::Flag(true),
        "no" => Seen::Flag(false),
        _ => step(rt, text),
    }
}
