//! What `bench/peers` compares with: calls of one kind on a cache in plain Rust, one after another.
//!
//! usage: peers_plain hit|mixed|miss|put CALLS
mod plain_cache;

use plain_cache::{all_keys, lock_stripe, stripes_of, Caller, Key, Stripe, Value};
use std::collections::HashMap;
use std::hint::black_box;
use std::sync::{Arc, Mutex};

const STRIPES: usize = 64;
const HISTORY: usize = 65_536;
const VALUE: Value = *b"a 16-byte value.";

trait Loader {
    fn load(&mut self, key: &Key) -> Option<Value>;
}

trait Writer {
    fn write(&mut self, key: &Key, value: &Value);
}

/// Loads from a store that others share, and writes to it.
struct Store(Arc<Mutex<HashMap<Key, Value>>>);

impl Loader for Store {
    fn load(&mut self, key: &Key) -> Option<Value> {
        self.0.lock().unwrap().get(key).copied()
    }
}

impl Writer for Store {
    fn write(&mut self, key: &Key, value: &Value) {
        self.0.lock().unwrap().insert(*key, *value);
    }
}

/// A session with its loader and its writer. Neither is called under a stripe's lock, and no key is reserved meanwhile.
struct Session<'a> {
    stripes: &'a [Mutex<Stripe>],
    loader: Box<dyn Loader>,
    writer: Box<dyn Writer>,
    call: u64,
}

impl Session<'_> {
    fn caller(&mut self) -> Caller {
        self.call += 1;
        Caller { session: 1, call: self.call }
    }

    fn get(&mut self, key: &Key) -> Option<Value> {
        let caller = self.caller();
        lock_stripe(self.stripes, key).get(caller, key)
    }

    fn put(&mut self, key: &Key, value: &Value) {
        let caller = self.caller();
        lock_stripe(self.stripes, key).put(caller, key, value);
    }

    fn get_through(&mut self, key: &Key) -> Option<Value> {
        let caller = self.caller();
        {
            let mut stripe = lock_stripe(self.stripes, key);
            if let Some(value) = stripe.find(key) {
                stripe.record(caller, key, Some(value), false);
                return Some(value);
            }
        }
        let loaded = self.loader.load(key);
        let mut stripe = lock_stripe(self.stripes, key);
        if let Some(value) = &loaded {
            stripe.insert(key, value);
        }
        stripe.record(caller, key, loaded, false);
        loaded
    }

    fn put_through(&mut self, key: &Key, value: &Value) {
        self.writer.write(key, value);
        self.put(key, value);
    }
}

/// So many calls, of the keys in turn. How many of them did as their kind says.
fn count(keys: &[Key], calls: u32, mut call: impl FnMut(&Key, u32) -> bool) -> usize {
    (0..calls).filter(|&turn| call(&keys[turn as usize % keys.len()], turn)).count()
}

fn main() {
    let words: Vec<String> = std::env::args().skip(1).collect();
    let [kind, calls] = &words[..] else { panic!("usage: peers_plain hit|mixed|miss|put CALLS") };
    let calls: u32 = calls.parse().expect("a number");
    let (keys, others) = (all_keys(b'a'), all_keys(b'b'));
    let stripes = stripes_of(STRIPES, HISTORY);
    let store = Arc::new(Mutex::new(others.iter().map(|key| (*key, VALUE)).collect()));
    let (loader, writer) = (Box::new(Store(store.clone())), Box::new(Store(store)));
    let mut session = Session { stripes: &stripes, loader, writer, call: 0 };
    // A map without entries ends a look-up at once, so for a miss other keys are there.
    let cached = if kind == "miss" { &others } else { &keys };
    cached.iter().for_each(|key| session.put(key, &VALUE));
    let done = match kind.as_str() {
        "hit" => count(&keys, calls, |key, _| black_box(session.get(key)).is_some()),
        "mixed" => count(&keys, calls, |key, turn| {
            if turn % 10 < 2 {
                session.put(key, &VALUE);
                return true;
            }
            black_box(session.get(key)).is_some()
        }),
        "miss" => count(&keys, calls, |key, _| black_box(session.get_through(key)).is_none()),
        "put" => count(&keys, calls, |key, _| {
            session.put_through(key, &VALUE);
            true
        }),
        _ => panic!("there is no such kind"),
    };
    println!("{done}");
}
