//! What calls with many keys return, compared with words.
use super::words::refusal;
use super::*;
use crate::common::words::{first_word, key, pair};
use indexmap::IndexMap;
use jc_bulk::BulkFault;

/// The map is to have these pairs, in this order.
pub fn has_pairs(rt: &impl Abort, found: &IndexMap<Key, Value>, wanted: &str) {
    let mut words = wanted.split_whitespace();
    for (k, v) in found {
        let word = words.next().expect(rt, wanted);
        is(rt, (*k, *v), pair(rt, word));
    }
    is(rt, words.next(), None);
}

/// Each of these keys failed, with this, in this order, and no other: `b WriterFailed 4, f HistoryFull`.
fn has_failed(rt: &impl Abort, failed: &IndexMap<Key, Refusal>, wanted: &str) {
    let mut parts = wanted.split_terminator(", ");
    for (k, why) in failed {
        let (at, rest) = first_word(parts.next().expect(rt, wanted));
        is(rt, (*k, *why), (key(rt, at), refusal(rt, rest)));
    }
    is(rt, parts.next(), None);
}

/// The call failed so: its cause, and after a colon the keys that failed; and after a bar what was found.
pub fn failed(rt: &impl Abort, fault: &BulkFault, wanted: &str) {
    let (failed, found) = wanted.split_once(" | ").unwrap_or((wanted, ""));
    let (cause, keys) = failed.split_once(": ").unwrap_or((failed, ""));
    is(rt, fault.cause, refusal(rt, cause));
    has_failed(rt, &fault.failed, keys);
    has_pairs(rt, &fault.found, found);
}

/// The call is to have ended so.
pub fn ended(rt: &impl Abort, returned: Result<(), BulkFault>, wanted: &str) {
    match returned {
        Ok(()) => is(rt, "ok", wanted),
        Err(fault) => failed(rt, &fault, wanted),
    }
}

/// The `getAll` is to have returned this.
pub fn got(rt: &impl Abort, returned: Result<IndexMap<Key, Value>, BulkFault>, wanted: &str) {
    match returned {
        Ok(found) => has_pairs(rt, &found, wanted.trim_start_matches('-')),
        Err(fault) => failed(rt, &fault, wanted),
    }
}

/// Each of these keys has this result, in this order, and no other: `a 2, b WriterFailed 6`.
fn has_results(rt: &impl Abort, results: &IndexMap<Key, Result<Value, Refusal>>, wanted: &str) {
    let mut parts = wanted.split_terminator(", ");
    for (k, one) in results {
        let (at, rest) = first_word(parts.next().expect(rt, wanted));
        is(rt, *k, key(rt, at));
        match one {
            Ok(v) => is(rt, v.bytes(), rest.as_bytes()),
            Err(why) => is(rt, *why, refusal(rt, rest)),
        }
    }
    is(rt, parts.next(), None);
}

/// The `invokeAll` is to have returned this.
pub fn invoked(
    rt: &impl Abort,
    returned: Result<IndexMap<Key, Result<Value, Refusal>>, Refusal>,
    wanted: &str,
) {
    match returned {
        Ok(results) => has_results(rt, &results, wanted.trim_start_matches('-')),
        Err(why) => is(rt, why, refusal(rt, wanted)),
    }
}
