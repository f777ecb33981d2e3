//! What `bench/bindings` measures in Rust: calls of one kind, one after another. Those of the core are of a desk behind a `Mutex`.
//!
//! usage: bindings_calls hit|begin|put_alone|put|miss|get|desks COUNT
mod plain_cache;

use cadwrelch::Cache;
use cadwrelch::core::{Asked, Desk, Loaded, Op, Reply, Shape, Written};
use plain_cache::{KEYS, Key, Value, all_keys};
use std::hint::black_box;
use std::sync::{Mutex, MutexGuard};

const STRIPES: usize = 16;
const HISTORY: usize = 256;
const VALUE: Value = *b"a 16-byte value.";

/// The stripes of a cache: each a desk and its lock.
struct Desks(Vec<Mutex<Desk>>);

impl Desks {
    /// Stripes that have these keys.
    fn open(keys: &[Key], read_through: bool, write_through: bool) -> Desks {
        let shape = Shape {
            stripes: STRIPES,
            capacity: KEYS,
            history: HISTORY,
            read_through,
            write_through,
            keeps_events: false,
        };
        let open = |stripe| {
            let own = keys.iter().filter(|key| stripe_of(key) == stripe);
            let entries: Vec<(&[u8], &[u8])> = own.map(|key| (&key[..], &VALUE[..])).collect();
            Mutex::new(Desk::open(&shape, stripe, &entries).expect("the shape is within the limits"))
        };
        Desks((0..STRIPES).map(open).collect())
    }

    fn lock(&self, key: &Key) -> MutexGuard<'_, Desk> {
        self.0[stripe_of(key)].lock().unwrap()
    }

    fn hit(&self, key: &Key) -> bool {
        black_box(self.lock(key).hit(1, key)).is_ok_and(|value| value.is_some())
    }

    /// A first phase that ends the call.
    fn is_done(&self, op: Op<'_>, key: &Key) -> bool {
        match black_box(self.lock(key).begin(1, op, key)) {
            Ok(Asked::Done(done)) => matches!(done.reply, Reply::Unit | Reply::Value(Some(_))),
            _ => false,
        }
    }

    /// The writer, which would be asked with the lock free, does nothing.
    fn put(&self, key: &Key) -> bool {
        let ticket = match self.lock(key).begin(1, Op::Put(&VALUE), key) {
            Ok(Asked::Write(ticket, _)) => ticket,
            _ => return false,
        };
        black_box(self.lock(key).commit_write(ticket, Written::Done)).is_ok()
    }

    /// The loader finds nothing.
    fn miss(&self, key: &Key) -> bool {
        let ticket = match self.lock(key).begin(1, Op::Get, key) {
            Ok(Asked::Load(ticket)) => ticket,
            _ => return false,
        };
        black_box(self.lock(key).commit_load(ticket, Loaded::Nothing)).is_ok()
    }
}

fn stripe_of(key: &Key) -> usize {
    key.iter().map(|byte| *byte as usize).sum::<usize>() % STRIPES
}

/// A cache of objects that has these keys.
fn cache_of(keys: &[Key]) -> Cache<Key, Value> {
    let cache = Cache::builder().stripes(STRIPES).capacity(STRIPES * KEYS).history(HISTORY).build();
    let cache = cache.expect("the shape is within the limits");
    for key in keys {
        cache.put(*key, VALUE).expect("nothing is written through");
    }
    cache
}

/// So many desks with 1,024 entries each, and histories of 64 events.
fn open_desks(keys: &[Key], count: usize) -> usize {
    let shape = Shape {
        stripes: 1,
        capacity: KEYS,
        history: 64,
        read_through: false,
        write_through: false,
        keeps_events: false,
    };
    let entries: Vec<(&[u8], &[u8])> = keys.iter().map(|key| (&key[..], &VALUE[..])).collect();
    let desks: Vec<_> = (0..count).map(|_| Desk::open(&shape, 0, &entries)).collect();
    desks.iter().filter(|desk| desk.is_ok()).count()
}

/// So many calls, of the keys in turn. How many of them did as their kind says.
fn made(keys: &[Key], calls: usize, mut call: impl FnMut(&Key) -> bool) -> usize {
    (0..calls).filter(|turn| call(&keys[turn % keys.len()])).count()
}

fn main() {
    let words: Vec<String> = std::env::args().skip(1).collect();
    let [kind, count] = &words[..] else { panic!("usage: bindings_calls KIND COUNT") };
    let count: usize = count.parse().expect("a number");
    let (keys, others) = (all_keys(b'a'), all_keys(b'b'));
    let done = match kind.as_str() {
        "hit" => {
            let desks = Desks::open(&keys, false, false);
            made(&keys, count, |key| desks.hit(key))
        }
        "begin" => {
            let desks = Desks::open(&keys, false, false);
            made(&keys, count, |key| desks.is_done(Op::Get, key))
        }
        "put_alone" => {
            let desks = Desks::open(&keys, false, false);
            made(&keys, count, |key| desks.is_done(Op::Put(&VALUE), key))
        }
        "put" => {
            let desks = Desks::open(&keys, false, true);
            made(&keys, count, |key| desks.put(key))
        }
        "miss" => {
            let desks = Desks::open(&others, true, false);
            made(&keys, count, |key| desks.miss(key))
        }
        "get" => {
            let cache = cache_of(&keys);
            made(&keys, count, |key| black_box(cache.get(key)).is_ok_and(|value| value.is_some()))
        }
        "desks" => open_desks(&keys, count),
        _ => panic!("there is no such kind"),
    };
    println!("{done}");
}
