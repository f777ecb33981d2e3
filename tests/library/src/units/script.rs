//! Histories as texts, which are read and judged.
//!
//! The words are those of scripts and transcripts. A row is a name, its lines, and `legal` or `illegal`. Its lines are:
//!
//! - `set KEY VALUE`, an entry of the opening;
//! - `CALL SESSION OP KEY [, ANSWER], is REPLY [shared PLACE]`, a step, as `1 s1 get a, read 1, is 1`. Nobody was asked if there
//!   is no answer. The loader's is `read VALUE`, `read -` or `readfail CODE`, the writer's `apply` or `applyfail CODE`, and the
//!   processor's, by its net effect, `sets VALUE`, `removes` or `keeps`;
//! - `evict KEY full` or `evict KEY memory`.
use super::{callers, evictions, is, openings, shape, shared};
use jc_model::{
    Cause, Effect, Event, LoadAnswer, Op, Out, ProcessAnswer, Reply, WriteAnswer, legal,
};
use jc_types::{Caller, Config, Key, Refusal, Value};
use std::alloc::Global;
use std::process::Abort;

// 1. Words. A word that isn't one fails the test.

/// The first word, and the rest after it.
pub(super) fn first_word(text: &str) -> (&str, &str) {
    text.split_once(' ').unwrap_or((text, ""))
}

pub(super) fn number(rt: &impl Abort, word: &str) -> u32 {
    word.parse().ok().expect(rt, word)
}

pub(super) fn key(rt: &impl Abort, word: &str) -> Key {
    Key::new(word.as_bytes()).ok().expect(rt, word)
}

pub(super) fn value(rt: &impl Abort, word: &str) -> Value {
    Value::new(word.as_bytes()).ok().expect(rt, word)
}

/// The call with this number, of a session such as `s1`.
pub(super) fn caller(rt: &impl Abort, call: &str, session: &str) -> Caller {
    let session = session.strip_prefix('s').expect(rt, session);
    Caller {
        session: number(rt, session),
        call: call.parse().ok().expect(rt, call),
    }
}

/// The value that a word names; a dash names none.
pub(super) fn value_or_none(rt: &impl Abort, word: &str) -> Option<Value> {
    if word == "-" {
        return None;
    }
    Some(value(rt, word))
}

// 2. Steps.

/// A replacement of one value by another.
fn replace_if(rt: &impl Abort, words: &str) -> Op {
    let (old, new) = first_word(words);
    Op::ReplaceIf {
        old: value(rt, old),
        new: value(rt, new),
    }
}

/// An operation, with its value if it takes one, or with both.
pub(super) fn op(rt: &impl Abort, name: &str, word: &str) -> Op {
    match name {
        "get" => Op::Get,
        "contains" => Op::ContainsKey,
        "put" => Op::Put(value(rt, word)),
        "getput" => Op::GetAndPut(value(rt, word)),
        "putif" => Op::PutIfAbsent(value(rt, word)),
        "remove" => Op::Remove,
        "removeif" => Op::RemoveIf(value(rt, word)),
        "getremove" => Op::GetAndRemove,
        "replace" => Op::Replace(value(rt, word)),
        "replaceif" => replace_if(rt, word),
        "getreplace" => Op::GetAndReplace(value(rt, word)),
        "clear" => Op::Clear,
        "loadall" => Op::LoadAll { replace: true },
        "invoke" => Op::Invoke,
        _ => panic!(rt; "no operation"),
    }
}

/// The answer of a loader: a value, or `-` for none.
fn found(rt: &impl Abort, word: &str) -> LoadAnswer {
    match value_or_none(rt, word) {
        Some(value) => LoadAnswer::Found(value),
        None => LoadAnswer::Nothing,
    }
}

/// A processor ended, and answered nothing.
fn process_only(effect: Effect) -> Out {
    Out {
        process: ProcessAnswer::Ended {
            effect,
            outcome: None,
        },
        ..Out::nothing_said()
    }
}

/// The outside answer, of the loader, the writer or the processor.
pub(super) fn answer(rt: &impl Abort, text: &str) -> Out {
    let (word, rest) = first_word(text);
    match word {
        "read" => Out::load_only(found(rt, rest)),
        "readfail" => Out::load_only(LoadAnswer::Failed(number(rt, rest))),
        "apply" => Out::write_only(WriteAnswer::Done),
        "applyfail" => Out::write_only(WriteAnswer::Failed(number(rt, rest))),
        "sets" => process_only(Effect::Set(value(rt, rest))),
        "removes" => process_only(Effect::Remove),
        "keeps" => process_only(Effect::Keep),
        _ => panic!(rt; "no answer"),
    }
}

pub(super) fn reply(rt: &impl Abort, text: &str) -> Reply {
    let (word, rest) = first_word(text);
    match word {
        "LoaderFailed" => Reply::Fault(Refusal::LoaderFailed(number(rt, rest))),
        "WriterFailed" => Reply::Fault(Refusal::WriterFailed(number(rt, rest))),
        "ProcessorFailed" => Reply::Fault(Refusal::ProcessorFailed(number(rt, rest))),
        "ok" => Reply::Unit,
        "true" => Reply::Flag(true),
        "false" => Reply::Flag(false),
        _ => Reply::Value(value_or_none(rt, word)),
    }
}

/// The step of a call, with the outside answer if there was one, with this reply.
fn step(rt: &impl Abort, call: &str, out: Out, replied: &str) -> Event {
    let (count, call) = first_word(call);
    let (session, call) = first_word(call);
    let (name, call) = first_word(call);
    let (word, rest) = first_word(call);
    let (replied, place) = replied.split_once(" shared ").unwrap_or((replied, ""));
    Event::Step {
        caller: caller(rt, count, session),
        op: op(rt, name, rest),
        key: key(rt, word),
        out,
        shared_with: place.parse().ok(),
        reply: reply(rt, replied),
    }
}

fn eviction(rt: &impl Abort, text: &str) -> Event {
    let (word, cause) = first_word(text);
    Event::Evict {
        key: key(rt, word),
        cause: if cause == "full" {
            Cause::Full
        } else {
            Cause::Memory
        },
    }
}

/// The event of a line.
pub(super) fn event(rt: &impl Abort, line: &str) -> Event {
    if let Some(text) = line.strip_prefix("evict ") {
        return eviction(rt, text);
    }
    let (call, replied) = line.split_once(", is ").expect(rt, line);
    match call.split_once(", ") {
        Some((call, said)) => step(rt, call, answer(rt, said), replied),
        None => step(rt, call, Out::nothing_said(), replied),
    }
}

fn entry(rt: &impl Abort, text: &str) -> (Key, Value) {
    let (word, rest) = first_word(text);
    (key(rt, word), value(rt, rest))
}

// 3. Histories.

/// The opening and the events of the lines.
fn history(rt: &impl Abort, alloc: Global, lines: &str) -> (Vec<(Key, Value)>, Vec<Event>) {
    let (mut opening, mut events) = (Vec::new(alloc), Vec::new(alloc));
    for line in lines.lines() {
        match line.strip_prefix("set ") {
            Some(text) => opening.push(entry(rt, text)).expect(rt, "memory"),
            None => events.push(event(rt, line)).expect(rt, "memory"),
        }
    }
    (opening, events)
}

/// Judges a row.
fn is_judged(rt: &impl Abort, alloc: Global, config: &Config, row: &str) {
    let (name, row) = row.split_once('\n').expect(rt, "a name");
    let (lines, verdict) = row.rsplit_once('\n').expect(rt, name);
    let (opening, events) = history(rt, alloc, lines);
    let is_legal = legal(alloc, config, &opening, &events).expect(rt, "memory");
    is(rt, name, is_legal, verdict == "legal");
}

/// Judges rows that are separated by `==`.
fn all_judged(rt: &impl Abort, alloc: Global, config: &Config, rows: &str) {
    for row in rows.split("\n==\n") {
        is_judged(rt, alloc, config, row);
    }
}

/// How many stripes there are, whether read-through and write-through are on, and rows.
type Judged = (usize, bool, &'static str);

const JUDGED: &[Judged] = &[
    (1, false, callers::CALLERS),
    (1, false, evictions::VICTIMS),
    (1, false, evictions::OWN),
    (1, true, openings::OPENINGS),
    (4, false, openings::STRIPES),
    (0, true, openings::NO_STRIPE),
    (1, true, openings::ONE_STRIPE),
    (1, true, shared::PUT),
    (1, true, shared::LOADED),
    (1, true, shared::SPOILED),
    (1, true, shared::EVICTED),
];

#[test]
fn judges_histories(rt: HostRuntime) {
    for (stripes, is_through, rows) in JUDGED {
        let config = Config {
            stripes: *stripes,
            ..shape(*is_through)
        };
        all_judged(&rt, rt.alloc(), &config, rows);
    }
}
