//! Words of a line.
use indexmap::{IndexMap, IndexSet};
use jc_types::{Key, Value};
use std::alloc::Global;
use std::process::Abort;

pub fn key(rt: &impl Abort, word: &str) -> Key {
    Key::new(word.as_bytes()).expect(rt, "a key")
}

pub fn value(rt: &impl Abort, word: &str) -> Value {
    Value::new(word.as_bytes()).expect(rt, "a value")
}

/// The code of a loader, a writer or a processor that has failed.
pub fn code(rt: &impl Abort, word: &str) -> u32 {
    word.parse().ok().expect(rt, "a code")
}

/// The first word, and what follows it, if anything.
pub fn first_word(text: &str) -> (&str, &str) {
    text.split_once(' ').unwrap_or((text, ""))
}

/// A key and a value, of a word such as `a=1`.
pub fn pair(rt: &impl Abort, word: &str) -> (Key, Value) {
    let (k, v) = word.split_once('=').expect(rt, "a pair");
    (key(rt, k), value(rt, v))
}

/// The keys that these words name.
pub fn keys_of(rt: &impl Abort, alloc: Global, words: &str) -> IndexSet<Key> {
    let mut keys = IndexSet::new(alloc);
    for word in words.split_whitespace() {
        let _is_new = keys.insert(key(rt, word)).ok().expect(rt, "memory");
    }
    keys
}

/// The same as a list.
pub fn key_list(rt: &impl Abort, alloc: Global, words: &str) -> Vec<Key> {
    let mut keys = Vec::new(alloc);
    for word in words.split_whitespace() {
        keys.push(key(rt, word)).ok().expect(rt, "memory");
    }
    keys
}

/// The pairs that these words name.
pub fn pairs_of(rt: &impl Abort, alloc: Global, words: &str) -> IndexMap<Key, Value> {
    let mut pairs = IndexMap::new(alloc);
    for word in words.split_whitespace() {
        let (k, v) = pair(rt, word);
        let _old = pairs.insert(k, v).ok().expect(rt, "memory");
    }
    pairs
}

/// The same as a list.
pub fn pair_list(rt: &impl Abort, alloc: Global, words: &str) -> Vec<(Key, Value)> {
    let mut pairs = Vec::new(alloc);
    for word in words.split_whitespace() {
        pairs.push(pair(rt, word)).ok().expect(rt, "memory");
    }
    pairs
}
