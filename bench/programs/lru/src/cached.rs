//! The kit's `lru` under the kit's `Mutex`, and beside it a store of record behind a lock of its own.
use lru::LruCache;
use std::alloc::{AllocError, Global};
use std::collections::HashMap;
use std::num::NonZeroUsize;
use std::sync::{Mutex, Wait};

/// How many keys the calls name: the cache keeps them all.
pub const KEYS: usize = 1024;

/// What keys and values are.
pub type Bytes = [u8; 16];

/// A cache that keeps no history.
#[derive(Drop)]
pub struct Cached {
    entries: Mutex<LruCache<Bytes, Bytes>>,
    store: Mutex<HashMap<Bytes, Bytes>>,
}

impl Cached {
    /// An empty cache of an empty store.
    pub fn new(alloc: Global) -> Result<Self, AllocError> {
        let Some(capacity) = NonZeroUsize::new(KEYS) else {
            unreachable!()
        };
        Ok(Cached {
            entries: Mutex::new(LruCache::new(alloc, capacity)?),
            store: Mutex::new(HashMap::new(alloc)),
        })
    }

    /// The value that is cached at a key.
    pub fn get<R: Wait>(&self, rt: &R, key: &Bytes) -> Option<Bytes> {
        self.entries.lock(rt).get(key).copied()
    }

    /// Caches a value at a key. Whether there was memory for it.
    pub fn put<R: Wait>(&self, rt: &R, key: &Bytes, value: &Bytes) -> bool {
        self.entries.lock(rt).put(*key, *value).is_ok()
    }

    /// The value at a key, which is read from the store and cached if it is not cached.
    pub fn get_through<R: Wait>(&self, rt: &R, key: &Bytes) -> Option<Bytes> {
        if let Some(value) = self.get(rt, key) {
            return Some(value);
        }
        let value = self.read(rt, key)?;
        self.put(rt, key, &value);
        Some(value)
    }

    /// Writes a value to the store, and then caches it. Whether both were done.
    pub fn put_through<R: Wait>(&self, rt: &R, key: &Bytes, value: &Bytes) -> bool {
        self.write(rt, key, value) && self.put(rt, key, value)
    }

    /// What a loader does: the value that the store has at a key.
    fn read<R: Wait>(&self, rt: &R, key: &Bytes) -> Option<Bytes> {
        self.store.lock(rt).get(key).copied()
    }

    /// What a writer does. Whether there was memory for the value.
    fn write<R: Wait>(&self, rt: &R, key: &Bytes, value: &Bytes) -> bool {
        self.store.lock(rt).insert(*key, *value).is_ok()
    }
}
