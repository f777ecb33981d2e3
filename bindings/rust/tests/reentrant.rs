//! Keys and values whose own methods call the cache: of the user's only `Eq` of keys runs with a lock held, or these would never end.
use cadwrelch::{Cache, Error};
use std::cell::Cell;
use std::collections::HashMap;
use std::hash::{Hash, Hasher};
use std::sync::{Arc, LazyLock, Mutex};

type Shared = Cache<Key, Value, fn(&Key) -> Result<Option<Value>, ()>>;

static CACHE: LazyLock<Shared> = LazyLock::new(|| {
    let load: fn(&Key) -> Result<Option<Value>, ()> = |key| Ok(Some(Value(key.0)));
    Cache::builder()
        .stripes(1)
        .capacity(4)
        .loader(load)
        .build()
        .unwrap()
});

static CALLS: LazyLock<Mutex<HashMap<&str, usize>>> = LazyLock::new(Mutex::default);

thread_local! {
    static IS_INSIDE: Cell<bool> = const { Cell::new(false) };
}

/// Calls the cache, unless it is such a call already.
fn call_the_cache(from: &'static str) {
    if IS_INSIDE.replace(true) {
        return;
    }
    *CALLS.lock().unwrap().entry(from).or_default() += 1;
    let results = [
        CACHE.put(Key(99), Value(99)),
        CACHE.get(&Key(98)).map(drop),
        CACHE.remove(&Key(99)).map(drop),
    ];
    for result in results {
        // The thread may have a call out, and the stripe no room.
        assert!(matches!(result, Ok(()) | Err(Error::WouldDeadlock(_))));
    }
    IS_INSIDE.set(false);
}

#[derive(Eq)]
struct Key(u32);

impl Hash for Key {
    fn hash<H: Hasher>(&self, state: &mut H) {
        call_the_cache("Key::hash");
        // All keys have one hash.
        state.write_u32(0);
    }
}

impl PartialEq for Key {
    fn eq(&self, other: &Key) -> bool {
        self.0 == other.0
    }
}

impl Clone for Key {
    fn clone(&self) -> Key {
        call_the_cache("Key::clone");
        Key(self.0)
    }
}

impl Drop for Key {
    fn drop(&mut self) {
        call_the_cache("Key::drop");
    }
}

struct Value(u32);

impl PartialEq for Value {
    fn eq(&self, other: &Value) -> bool {
        call_the_cache("Value::eq");
        self.0 == other.0
    }
}

impl Drop for Value {
    fn drop(&mut self) {
        call_the_cache("Value::drop");
    }
}

#[test]
fn methods_of_keys_and_values_may_call_the_cache() {
    std::thread::scope(|threads| {
        for _ in 0..4 {
            threads.spawn(make_all_calls);
        }
    });
    CACHE.clear().unwrap();
    assert!(CACHE.agrees());
    let calls = CALLS.lock().unwrap();
    for from in [
        "Key::hash",
        "Key::clone",
        "Key::drop",
        "Value::eq",
        "Value::drop",
    ] {
        assert!(calls.contains_key(from), "{from} was not called");
    }
}

fn make_all_calls() {
    for i in 0..40 {
        let key = || Key(i % 9);
        CACHE.get(&key()).unwrap();
        CACHE.put(key(), Value(i)).unwrap();
        CACHE.replace_if(key(), Value(i), Value(i + 1)).unwrap();
        CACHE.remove_if(&key(), Value(i)).unwrap();
        CACHE.get_and_put(key(), Value(i)).unwrap();
        CACHE
            .put_all([(key(), Value(1)), (Key(50), Value(2))])
            .unwrap_or_else(|_| panic!());
        CACHE
            .load_all([key(), Key(51), key()], true)
            .unwrap_or_else(|_| panic!());
        CACHE
            .invoke(key(), |entry| {
                entry.set(Arc::new(Value(3)));
                Ok(())
            })
            .unwrap();
        CACHE.remove(&key()).unwrap();
    }
}
