//! Lines of a session: calls, and lines that say what there is by then. A line that begins with `# ` is a comment.
//!
//!     stored a=1                  what is in the store
//!     counts 0 1 0 1 0 0          calls of the loader for one key and for many, of the writer to write and to delete so
//!     told 1 0                    how often a listener was told of success, and of a failure
//!     own 2                       how many steps the session has made
//!     await                       waits for the first signal
//!     random 2                    makes random calls as the session at this place, counted from 0
use super::outside::Outside;
use super::processors::processor_of;
use super::random::call_often;
use super::results::{ended, got, invoked};
use super::words::many;
use super::*;
use crate::common::words::{first_word, key, keys_of, pairs_of, value};
use indexmap::IndexSet;
use jc_bulk::{BulkFault, clear, get_all, load_keys, put_all, remove_all, remove_every};
use jc_invoke::invoke_all;

/// Makes a call that has no result but its faults.
fn called<R: Abort + Wait>(
    rt: &R,
    alloc: Global,
    cache: &Cache,
    session: &mut Session,
    word: &str,
    words: &str,
) -> Result<(), BulkFault> {
    match word {
        "putall" => put_all(alloc, rt, cache, session, &pairs_of(rt, alloc, words)),
        "removeall" => remove_all(alloc, rt, cache, session, &keys_of(rt, alloc, words)),
        "removeevery" => remove_every(alloc, rt, cache, session),
        "clear" => clear(alloc, rt, cache, session),
        "keep" => load_keys(alloc, rt, cache, session, &keys_of(rt, alloc, words), false),
        "replace" => load_keys(alloc, rt, cache, session, &keys_of(rt, alloc, words), true),
        _ => panic!(rt; "no call {word}"),
    }
}

/// Makes a call of one key, `get K` or `put K V`.
fn called_at_key<R: Abort + Wait>(
    rt: &R,
    cache: &Cache,
    session: &mut Session,
    word: &str,
    words: &str,
) -> Option<Value> {
    let (at, rest) = first_word(words);
    if word == "put" {
        cache
            .put(rt, session, &key(rt, at), &value(rt, rest))
            .ok()
            .expect(rt, "a put");
        return None;
    }
    cache
        .get(rt, session, &key(rt, at))
        .ok()
        .expect(rt, "a get")
}

/// Runs the processor of a word on these keys. It is to return this.
fn invoke_each<R: Abort + Wait>(
    rt: &R,
    alloc: Global,
    cache: &Cache,
    session: &mut Session,
    word: &str,
    keys: &IndexSet<Key>,
    wanted: &str,
) {
    let mut processor = processor_of(rt, alloc, word);
    let results = invoke_all(alloc, rt, cache, session, keys, &mut processor, &[]);
    invoked(rt, results, wanted);
}

/// Makes the call that a line says. It is to return what the line says.
fn call<R: Abort + Wait>(rt: &R, alloc: Global, cache: &Cache, session: &mut Session, line: &str) {
    let (called_words, wanted) = line.split_once(" = ").expect(rt, line);
    let (word, words) = first_word(called_words);
    match word {
        "get" | "put" => {
            let found = called_at_key(rt, cache, session, word, words);
            let wanted = if wanted == "-" {
                None
            } else {
                Some(value(rt, wanted))
            };
            is(rt, found, wanted);
        }
        "getall" => {
            let keys = keys_of(rt, alloc, words);
            got(rt, get_all(alloc, rt, cache, session, &keys), wanted);
        }
        "getmany" => {
            let keys = many(rt, alloc, words);
            got(rt, get_all(alloc, rt, cache, session, &keys), wanted);
        }
        "invokeall" | "changeall" | "idleall" | "failall" => {
            let keys = keys_of(rt, alloc, words);
            invoke_each(rt, alloc, cache, session, word, &keys, wanted);
        }
        "invokemany" => {
            let keys = many(rt, alloc, words);
            invoke_each(rt, alloc, cache, session, word, &keys, wanted);
        }
        _ => ended(rt, called(rt, alloc, cache, session, word, words), wanted),
    }
}

/// Does what a line says.
pub fn play<R: Abort + Wait>(
    rt: &R,
    alloc: Global,
    outside: &Outside,
    cache: &Cache,
    session: &mut Session,
    line: &str,
) {
    let (word, rest) = first_word(line);
    match word {
        "#" => {}
        "stored" => outside.holds(rt, alloc, rest),
        "counts" => outside.counted(rt, rest),
        "told" => outside.has_told(rt, rest),
        "await" => outside.signals.wait_for_first(rt),
        "random" => call_often(rt, alloc, cache, session, outside, rest),
        "own" => is(rt, Some(session.own()), rest.parse().ok()),
        _ => call(rt, alloc, cache, session, line),
    }
}

/// Does what each of these lines says, which have a `;` between.
pub fn plays<R: Abort + Wait>(
    rt: &R,
    alloc: Global,
    outside: &Outside,
    cache: &Cache,
    session: &mut Session,
    text: &str,
) {
    for line in text.split_terminator(';') {
        play(rt, alloc, outside, cache, session, line);
    }
}
