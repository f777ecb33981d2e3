//! A cache in plain Rust, which `bench/threads` and `bench/peers` compare with: each stripe under a `Mutex`: a map, a list in order of use,
//! and a lean record of each call. No stripe evicts: each has room for all keys.
use std::collections::HashMap;
use std::sync::{Mutex, MutexGuard};

/// How many keys the calls name.
pub const KEYS: usize = 1024;
const NONE: usize = usize::MAX;

pub type Key = [u8; 16];
pub type Value = [u8; 16];

/// Who calls: a session's number, and the number of its call.
#[derive(Clone, Copy)]
pub struct Caller {
    pub session: u32,
    pub call: u64,
}

/// The value of an entry, in a list in order of use.
struct Entry {
    value: Value,
    before: usize,
    after: usize,
}

/// What is recorded of a call.
#[allow(dead_code)]
struct Step {
    key: Key,
    value: Option<Value>,
    session: u32,
    call: u64,
    is_put: bool,
}

pub struct Stripe {
    places: HashMap<Key, usize>,
    entries: Vec<Entry>,
    first: usize,
    last: usize,
    steps: Vec<Step>,
}

impl Stripe {
    fn new(history: usize) -> Stripe {
        Stripe {
            places: HashMap::with_capacity(KEYS),
            entries: Vec::with_capacity(KEYS),
            first: NONE,
            last: NONE,
            steps: Vec::with_capacity(history),
        }
    }

    fn unlink(&mut self, place: usize) {
        let (before, after) = (self.entries[place].before, self.entries[place].after);
        match before {
            NONE => self.first = after,
            _ => self.entries[before].after = after,
        }
        match after {
            NONE => self.last = before,
            _ => self.entries[after].before = before,
        }
    }

    fn to_front(&mut self, place: usize) {
        self.entries[place].before = NONE;
        self.entries[place].after = self.first;
        match self.first {
            NONE => self.last = place,
            first => self.entries[first].before = place,
        }
        self.first = place;
    }

    fn touch(&mut self, place: usize) {
        if self.first != place {
            self.unlink(place);
            self.to_front(place);
        }
    }

    /// The value that is cached at a key, which is used.
    #[inline]
    pub fn find(&mut self, key: &Key) -> Option<Value> {
        let &place = self.places.get(key)?;
        self.touch(place);
        Some(self.entries[place].value)
    }

    /// Caches a value at a key, which is used.
    #[inline]
    pub fn insert(&mut self, key: &Key, value: &Value) {
        match self.places.get(key) {
            Some(&place) => {
                self.entries[place].value = *value;
                self.touch(place);
            }
            None => {
                let place = self.entries.len();
                self.entries.push(Entry { value: *value, before: NONE, after: NONE });
                self.to_front(place);
                self.places.insert(*key, place);
            }
        }
    }

    /// Records a call, with the value that it got or put.
    #[inline]
    pub fn record(&mut self, caller: Caller, key: &Key, value: Option<Value>, is_put: bool) {
        let Caller { session, call } = caller;
        self.steps.push(Step { key: *key, value, session, call, is_put });
    }

    #[inline]
    pub fn get(&mut self, caller: Caller, key: &Key) -> Option<Value> {
        let value = self.find(key);
        self.record(caller, key, value, false);
        value
    }

    #[inline]
    pub fn put(&mut self, caller: Caller, key: &Key, value: &Value) {
        self.insert(key, value);
        self.record(caller, key, Some(*value), true);
    }
}

/// Stripes that have room for so many steps each.
pub fn stripes_of(count: usize, history: usize) -> Vec<Mutex<Stripe>> {
    (0..count).map(|_| Mutex::new(Stripe::new(history))).collect()
}

/// The stripe of a key.
#[inline]
pub fn lock_stripe<'a>(stripes: &'a [Mutex<Stripe>], key: &Key) -> MutexGuard<'a, Stripe> {
    let sum: usize = key.iter().map(|byte| *byte as usize).sum();
    stripes[sum % stripes.len()].lock().unwrap()
}

/// The keys: each stripe of 16 or 64 has the same number of them. Those of another kind differ in their first byte.
pub fn all_keys(kind: u8) -> Vec<Key> {
    (0..KEYS)
        .map(|i| {
            let mut key = *b"a key 16 bytes..";
            key[0] = kind;
            key[14] = (i / 64) as u8;
            key[15] = (i % 64) as u8;
            key
        })
        .collect()
}
