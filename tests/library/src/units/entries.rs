//! The order of use, evictions past pinned keys, and the limits of the capacity. A text of keys stands for keys of one byte each.
use super::{is, key, pairs, value};
use jc_entries::{Entries, Inserted};
use jc_model::Cause;
use jc_types::{CAPACITY_MAX, Key, Value};
use std::alloc::Global;
use std::process::Abort;

fn keys_in(rt: &impl Abort, alloc: Global, text: &str) -> Vec<Key> {
    let mut keys = Vec::new(alloc);
    for byte in text.as_bytes() {
        keys.push(key(rt, &[*byte])).expect(rt, "memory");
    }
    keys
}

/// The keys of the entries as a text, the most recently used first.
fn shown(rt: &impl Abort, alloc: Global, entries: &Entries) -> Vec<u8> {
    let mut keys = Vec::with_capacity(alloc, entries.capacity()).expect(rt, "memory");
    entries.keys(&mut keys);
    let mut text = Vec::new(alloc);
    for key in &keys {
        text.extend_from_slice(key.bytes()).expect(rt, "memory");
    }
    text
}

/// Asserts that the entries' keys are those of a text.
fn holds(rt: &impl Abort, alloc: Global, entries: &Entries, at: &str, keys: &[u8]) {
    is(rt, at, shown(rt, alloc, entries).as_slice(), keys);
}

fn empty(rt: &impl Abort, alloc: Global, capacity: usize) -> Entries {
    assert!(rt; 0 < capacity && capacity <= CAPACITY_MAX);
    Entries::new(alloc, capacity).expect(rt, "memory")
}

// 1. The order of use.

#[derive(Clone, Copy)]
enum Call {
    /// Inserts the value.
    Put(&'static str),
    Remove,
    Use,
    Peek,
}

/// Makes a call, and returns the value that it finds.
fn made(rt: &impl Abort, entries: &mut Entries, key: &Key, call: Call) -> Option<Value> {
    match call {
        Call::Put(text) => {
            let found = entries.insert(key, &value(rt, text.as_bytes()), &[]);
            is(rt, text, found, Inserted::Kept);
            None
        }
        Call::Remove => entries.remove(key),
        Call::Use => {
            if entries.touch(key) {
                entries.most_recent().copied()
            } else {
                None
            }
        }
        Call::Peek => entries.peek(key),
    }
}

/// A call on a key, the value that it finds, and the keys after it.
type Use = (Call, &'static str, Option<&'static str>, &'static [u8]);

const USES: &[Use] = &[
    (Call::Remove, "a", None, b""),
    (Call::Put("1"), "a", None, b"a"),
    (Call::Put("2"), "b", None, b"ba"),
    (Call::Put("3"), "c", None, b"cba"),
    (Call::Peek, "a", Some("1"), b"cba"),
    (Call::Peek, "d", None, b"cba"),
    (Call::Use, "a", Some("1"), b"acb"),
    (Call::Use, "d", None, b"acb"),
    (Call::Use, "c", Some("3"), b"cab"),
    (Call::Use, "d", None, b"cab"),
    (Call::Put("4"), "b", None, b"bca"),
    (Call::Remove, "a", Some("1"), b"bc"),
    (Call::Remove, "a", None, b"bc"),
    (Call::Peek, "b", Some("4"), b"bc"),
];

fn plays(rt: &impl Abort, alloc: Global, entries: &mut Entries, uses: &[Use]) {
    for (call, name, text, left) in uses {
        let found = made(rt, entries, &key(rt, name.as_bytes()), *call);
        let want = match text {
            Some(text) => Some(value(rt, text.as_bytes())),
            None => None,
        };
        is(rt, name, found, want);
        holds(rt, alloc, entries, name, left);
    }
}

/// Asserts that the entries are the pairs of a text.
fn lists(rt: &impl Abort, alloc: Global, entries: &Entries, want: &str) {
    let mut found = Vec::new(alloc);
    entries.append_to(&mut found).expect(rt, "memory");
    is(
        rt,
        want,
        found.as_slice(),
        pairs(rt, alloc, want).as_slice(),
    );
}

#[test]
fn keeps_the_order_of_use(rt: HostRuntime) {
    let mut entries = empty(&rt, rt.alloc(), 3);
    holds(&rt, rt.alloc(), &entries, "new", b"");
    plays(&rt, rt.alloc(), &mut entries, USES);
    lists(&rt, rt.alloc(), &entries, "b=4 c=3");
}

// 2. Evictions.

/// Inserts c into entries with room for two, which are b and then a, while these keys are pinned.
fn evicts(rt: &impl Abort, alloc: Global, pinned: &str, want: Inserted, left: &[u8]) {
    let mut entries = empty(rt, alloc, 2);
    let x = value(rt, b"x");
    entries.insert(&key(rt, b"a"), &x, &[]);
    entries.insert(&key(rt, b"b"), &x, &[]);
    let pinned_keys = keys_in(rt, alloc, pinned);
    let found = entries.insert(&key(rt, b"c"), &x, &pinned_keys);
    is(rt, pinned, found, want);
    holds(rt, alloc, &entries, pinned, left);
}

#[test]
fn evicts_the_least_recently_used_that_is_not_pinned(rt: HostRuntime) {
    let (a, b) = (key(&rt, b"a"), key(&rt, b"b"));
    evicts(&rt, rt.alloc(), "", Inserted::KeptAfter(a), b"cb");
    evicts(&rt, rt.alloc(), "bc", Inserted::KeptAfter(a), b"cb");
    evicts(&rt, rt.alloc(), "a", Inserted::KeptAfter(b), b"ca");
    let full = Inserted::NotKept(Cause::Full, None);
    evicts(&rt, rt.alloc(), "ab", full, b"ba");
}

/// Inserts as many keys as there may be, the numbers from 0.
fn fill(rt: &impl Abort, entries: &mut Entries, x: &Value) {
    for i in 0..entries.capacity() {
        let found = entries.insert(&key(rt, &i.to_be_bytes()), x, &[]);
        is(rt, "as many as it may", found, Inserted::Kept);
    }
}

/// Asserts that as many entries fit as there may be, and that one more evicts the first.
fn fills(rt: &impl Abort, alloc: Global, capacity: usize) {
    let mut entries = empty(rt, alloc, capacity);
    let x = value(rt, b"x");
    fill(rt, &mut entries, &x);
    let found = entries.insert(&key(rt, b"m"), &x, &[]);
    let first = key(rt, &0usize.to_be_bytes());
    is(rt, "one more", found, Inserted::KeptAfter(first));
    is(rt, "full", entries.capacity(), capacity);
    is(rt, "length", entries.len(), capacity);
}

#[test]
fn keeps_as_many_as_it_may(rt: HostRuntime) {
    fills(&rt, rt.alloc(), 1);
    fills(&rt, rt.alloc(), CAPACITY_MAX);
}
