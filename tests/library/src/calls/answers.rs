//! Calls and their answers, as words.
use super::invoking::invoked;
use crate::common::words::{code, first_word, key, value};
use jc_cache::{Cache, Session};
use jc_model::{Op, Reply};
use jc_types::{Key, Refusal, Value};
use std::alloc::Global;
use std::process::Abort;
use std::sync::Wait;

/// What a call answers, in the words of the operation table.
pub type Answer = Result<Reply, Refusal>;

/// The answer that a text says.
pub fn answer_of(rt: &impl Abort, text: &str) -> Answer {
    let (word, rest) = first_word(text);
    match word {
        "ok" => Ok(Reply::Unit),
        "true" => Ok(Reply::Flag(true)),
        "false" => Ok(Reply::Flag(false)),
        "-" => Ok(Reply::Value(None)),
        "LoaderFailed" => Err(Refusal::LoaderFailed(code(rt, rest))),
        "WriterFailed" => Err(Refusal::WriterFailed(code(rt, rest))),
        "ProcessorFailed" => Err(Refusal::ProcessorFailed(code(rt, rest))),
        "HistoryFull" => Err(Refusal::HistoryFull),
        "Busy" => Err(Refusal::Busy),
        _ => Ok(Reply::Value(Some(value(rt, word)))),
    }
}

/// What a call is answered whose step has this reply.
pub fn replied_as(reply: Reply) -> Answer {
    match reply {
        Reply::Fault(fault) => Err(fault),
        Reply::Unit | Reply::Flag(_) | Reply::Value(_) => Ok(reply),
    }
}

/// The operation that a text says, with its value if it takes one.
pub fn op_of(rt: &impl Abort, op: &str, text: &str) -> Op {
    match op {
        "get" => Op::Get,
        "remove" => Op::Remove,
        "put" => Op::Put(value(rt, text)),
        "replace" => Op::Replace(value(rt, text)),
        _ => panic!(rt; "no operation: {op}"),
    }
}

pub fn entry(answer: Result<Option<Value>, Refusal>) -> Answer {
    Ok(Reply::Value(answer?))
}

fn flag(answer: Result<bool, Refusal>) -> Answer {
    Ok(Reply::Flag(answer?))
}

fn unit(answer: Result<(), Refusal>) -> Answer {
    answer?;
    Ok(Reply::Unit)
}

/// A `get` that writes the value to a room.
fn read_into<R: Wait>(rt: &R, cache: &Cache, session: &mut Session, key: &Key) -> Answer {
    let mut room = Value::default();
    let is_there = cache.get_into(rt, session, key, &mut room)?;
    Ok(Reply::Value(if is_there { Some(room) } else { None }))
}

/// The operations that take a key alone.
pub fn called_bare<R: Wait>(
    rt: &R,
    cache: &Cache,
    session: &mut Session,
    op: &str,
    key: &Key,
) -> Option<Answer> {
    match op {
        "get" => Some(entry(cache.get(rt, session, key))),
        "getinto" => Some(read_into(rt, cache, session, key)),
        "contains" => Some(flag(cache.contains_key(rt, session, key))),
        "remove" => Some(flag(cache.remove(rt, session, key))),
        "getremove" => Some(entry(cache.get_and_remove(rt, session, key))),
        "tryget" => Some(entry(cache.try_get(session, key))),
        "trycontains" => Some(flag(cache.try_contains_key(session, key))),
        _ => None,
    }
}

/// The operations that take a key and a value.
pub fn called_valued<R: Wait>(
    rt: &R,
    cache: &Cache,
    session: &mut Session,
    op: &str,
    key: &Key,
    value: &Value,
) -> Option<Answer> {
    match op {
        "put" => Some(unit(cache.put(rt, session, key, value))),
        "getput" => Some(entry(cache.get_and_put(rt, session, key, value))),
        "putif" => Some(flag(cache.put_if_absent(rt, session, key, value))),
        "removeif" => Some(flag(cache.remove_if(rt, session, key, value))),
        "replace" => Some(flag(cache.replace(rt, session, key, value))),
        "getreplace" => Some(entry(cache.get_and_replace(rt, session, key, value))),
        "tryput" => Some(unit(cache.try_put(session, key, value))),
        _ => None,
    }
}

/// Makes the call that a text says: an operation, a key, and none, one or two values; of `invoke` the processor's calls follow.
pub fn called<R: Abort + Wait>(
    rt: &R,
    alloc: Global,
    cache: &Cache,
    session: &mut Session,
    text: &str,
) -> Answer {
    let (op, rest) = first_word(text);
    let (at, values) = first_word(rest);
    let key = key(rt, at);
    if op == "invoke" {
        return invoked(rt, alloc, cache, session, &key, values);
    }
    if values.is_empty() {
        return called_bare(rt, cache, session, op, &key).expect(rt, "an operation");
    }
    let (first, second) = first_word(values);
    let first = value(rt, first);
    if second.is_empty() {
        return called_valued(rt, cache, session, op, &key, &first).expect(rt, "an operation");
    }
    flag(cache.replace_if(rt, session, &key, &first, &value(rt, second)))
}
