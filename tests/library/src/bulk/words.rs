//! Words of a line that tells refusals, or how many keys there are.
use super::*;
use crate::common::words::{code, first_word};
use indexmap::IndexSet;

/// The refusal that words name, as `WriterFailed 4`.
pub fn refusal(rt: &impl Abort, words: &str) -> Refusal {
    let (name, rest) = first_word(words);
    match name {
        "LoaderFailed" => Refusal::LoaderFailed(code(rt, rest)),
        "WriterFailed" => Refusal::WriterFailed(code(rt, rest)),
        "ProcessorFailed" => Refusal::ProcessorFailed(code(rt, rest)),
        "HistoryFull" => Refusal::HistoryFull,
        "TooManyKeys" => Refusal::TooManyKeys,
        _ => panic!(rt; "no refusal: {words}"),
    }
}

/// So many keys, of a word that says how many: `k` and a number.
pub fn many(rt: &impl Abort, alloc: Global, word: &str) -> IndexSet<Key> {
    let count: u16 = word.parse().ok().expect(rt, word);
    let mut keys = IndexSet::new(alloc);
    for i in 0..count {
        let [low, high] = i.to_le_bytes();
        let key = Key::new(&[b'k', high, low]).ok().expect(rt, "a key");
        let _is_new = keys.insert(key).ok().expect(rt, "memory");
    }
    keys
}
