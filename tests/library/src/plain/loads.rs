//! Loads of one key and of many.
use super::letters::Letters;
use super::{is, key, load_answer};
use jc_outside::{
    Answers, Ask, CacheLoader, Hands, LoadBatch, LoadDone, Outside, call_loader, call_loader_all,
};
use jc_plain::{Load, Loading};
use jc_types::{Key, Value};
use std::alloc::Global;
use std::process::Abort;
use std::sync::Wait;

/// The keys that are asked, the failure of the call, the answer for each key (`-` for none), and the number of calls of the
/// store.
type Row = (&'static str, Option<u8>, &'static str, u32);

const ROWS: &[Row] = &[
    ("", None, "", 0),
    ("-", None, "-", 1),
    ("abc", None, "abc", 3),
    ("a-c", None, "a-c", 3),
    ("aBc", Some(b'B'), "a--", 2),
    ("abC", Some(b'C'), "ab-", 3),
    ("ABC", Some(b'A'), "---", 1),
    ("aBC", Some(b'B'), "a--", 2),
];

fn keys(rt: &impl Abort, alloc: Global, text: &str) -> Vec<Key> {
    let mut keys = Vec::new(alloc);
    for byte in text.as_bytes() {
        keys.push(key(rt, *byte)).expect(rt, "memory");
    }
    keys
}

/// The answer at a key, as a byte.
fn answer_at(answers: &Answers, key: &Key) -> u8 {
    match answers.get(key) {
        Some(value) => value.bytes().first().copied().unwrap_or(b'?'),
        None => b'-',
    }
}

/// Asserts that the answers are those of this text.
fn answers_are(rt: &impl Abort, answers: &Answers, keys: &[Key], text: &str) {
    for (key, want) in keys.iter().zip(text.as_bytes()) {
        is(rt, text, answer_at(answers, key), *want);
    }
}

fn loads_as(rt: &impl Abort, alloc: Global, row: &Row) {
    let (text, code, want, calls) = row;
    let keys = keys(rt, alloc, text);
    let mut answers = Answers::new(alloc, &keys).expect(rt, "memory");
    let mut letters = Letters::new();
    let returned = letters.load_all(&keys, &mut answers);
    is(rt, text, returned.err(), code.map(u32::from));
    is(rt, text, letters.calls, *calls);
    answers_are(rt, &answers, &keys, want);
}

#[test]
fn loads_up_to_the_first_failure(rt: HostRuntime) {
    for row in ROWS {
        loads_as(&rt, rt.alloc(), row);
    }
}

/// Finds all keys in one query.
#[derive(Drop)]
struct Query;

impl Load for Query {
    fn load(&mut self, _key: &Key) -> Result<Option<Value>, u32> {
        Err(1)
    }

    fn load_all(&mut self, keys: &[Key], answers: &mut Answers) -> Result<(), u32> {
        for key in keys {
            if let Ok(value) = Value::new(key.bytes()) {
                answers.put(key, &value);
            }
        }
        Ok(())
    }
}

/// An ask of a loader.
struct Asked {
    key: Key,
}

impl Ask for Asked {
    ghost key = { ? };

    fn key(&self) -> &Key {
        &self.key
    }

    fn spend(self) {
        let Asked { key: _ } = self;
    }
}

fn ask(key: Key) -> Asked {
    Asked { key }
}

/// Asks for one key.
fn load<R: Abort + Wait>(rt: &R, hands: &mut Hands<Outside>, byte: u8, want: u8) {
    let answer = call_loader(rt, hands, ask(key(rt, byte))).into_answer();
    is(rt, "load", answer, load_answer(rt, want));
}

/// Asserts that the last done value has this answer.
fn was_loaded(rt: &impl Abort, done: &mut Vec<LoadDone<Asked>>, want: u8) {
    let last = done.pop().expect(rt, "a done value");
    is(rt, "load all", last.into_answer(), load_answer(rt, want));
}

/// Asks for two keys in one call.
fn load_two<R: Abort + Wait>(
    rt: &R,
    alloc: Global,
    hands: &mut Hands<Outside>,
    text: [u8; 2],
    want: [u8; 2],
) {
    let [first, second] = text;
    let (a, b) = (key(rt, first), key(rt, second));
    let mut done = Vec::with_capacity(alloc, 2).expect(rt, "memory");
    let mut asks = Vec::with_capacity(alloc, 2).expect(rt, "memory");
    let mut batch = LoadBatch::with_capacity(alloc, 2).expect(rt, "memory");
    asks.push_reserved(ask(a));
    batch.insert(a);
    asks.push_reserved(ask(b));
    batch.insert(b);
    let _spent = call_loader_all(rt, hands, &mut asks, batch, &mut done);
    asks.destroy_empty();
    let [before, last] = want;
    was_loaded(rt, &mut done, last);
    was_loaded(rt, &mut done, before);
    assert!(rt; done.is_empty());
    done.destroy_empty();
}

#[test]
fn a_cache_calls_what_was_wrapped(rt: HostRuntime) {
    let letters = Loading {
        loader: Letters::new(),
    };
    let loader = boxed!(rt, Box<dyn CacheLoader + Send + Drop>, letters);
    let mut hands = Hands::new(Outside {
        loader: Some(loader),
        writer: None,
    });
    load(&rt, &mut hands, b'a', b'a');
    load(&rt, &mut hands, b'-', b'-');
    load(&rt, &mut hands, b'B', b'B');
    load_two(&rt, rt.alloc(), &mut hands, *b"-a", *b"-a");
    load_two(&rt, rt.alloc(), &mut hands, *b"aB", *b"BB");
}

#[test]
fn a_cache_calls_a_query_of_its_own(rt: HostRuntime) {
    let query = Loading { loader: Query };
    let loader = boxed!(rt, Box<dyn CacheLoader + Send + Drop>, query);
    let mut hands = Hands::new(Outside {
        loader: Some(loader),
        writer: None,
    });
    load_two(&rt, rt.alloc(), &mut hands, *b"ab", *b"ab");
}
