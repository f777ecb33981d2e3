//! Lines of calls.
use super::*;
use crate::common::words::{key, value};
use indexmap::{IndexMap, IndexSet};

/// A line: the word of a call, and its keys, with their values. A key without a value has the empty one.
#[derive(Drop)]
pub struct Line<'a> {
    pub word: &'a str,
    pub keys: IndexSet<Key>,
    pub entries: IndexMap<Key, Value>,
}

impl<'a> Line<'a> {
    pub fn of(rt: &impl Abort, alloc: Global, text: &'a str) -> Self {
        let (word, words) = text.split_once(' ').unwrap_or((text, ""));
        Line::new(rt, alloc, word, words)
    }

    /// The call with this word, of the keys and values that these words name.
    pub fn new(rt: &impl Abort, alloc: Global, word: &'a str, words: &str) -> Self {
        let entries = entries_of(rt, alloc, words);
        Line {
            word,
            keys: keys_of(rt, alloc, &entries),
            entries,
        }
    }

    /// The first key and its value.
    pub fn first(&self, rt: &impl Abort) -> (Key, Value) {
        let (key, value) = self.entries.get_index(0).expect(rt, "a key");
        (*key, *value)
    }
}

/// The entries that these words name, as `a=1 b`.
pub fn entries_of(rt: &impl Abort, alloc: Global, words: &str) -> IndexMap<Key, Value> {
    let mut entries = IndexMap::new(alloc);
    for word in words.split_whitespace() {
        let (k, v) = word.split_once('=').unwrap_or((word, ""));
        let _old = entries
            .insert(key(rt, k), value(rt, v))
            .ok()
            .expect(rt, "memory");
    }
    entries
}

pub fn keys_of(rt: &impl Abort, alloc: Global, entries: &IndexMap<Key, Value>) -> IndexSet<Key> {
    let mut keys = IndexSet::new(alloc);
    for (k, _value) in entries {
        let _is_new = keys.insert(*k).ok().expect(rt, "memory");
    }
    keys
}
