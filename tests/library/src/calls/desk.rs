//! A store whose loaders and writers count their calls, with signals between threads, and a clock.
use super::manners::Actor;
use super::real_time::Times;
use super::signals::Signals;
use super::*;
use jc_cache::ClosedStripe;
use jc_store::{Counting, SharedCounts, SharedStore, Store, StoreLoader, StoreWriter};

/// A store with a=1, and the counts of its loaders' and writers' calls.
#[derive(Drop)]
pub struct Desk {
    pub store: SharedStore,
    pub signals: Signals,
    pub times: Times,
    counts: SharedCounts,
}

impl Desk {
    /// A desk whose store has these entries, as `a=1 b=2`.
    pub fn of(rt: &impl Abort, alloc: Global, entries: &str) -> Self {
        let store = Store::of(alloc, &entries_of(rt, alloc, entries)).expect(rt, "memory");
        Desk {
            store: SharedStore::new(alloc, store).expect(rt, "memory"),
            signals: Signals::new(alloc).expect(rt, "memory"),
            times: Times::new(alloc),
            counts: SharedCounts::new(alloc).expect(rt, "memory"),
        }
    }

    /// A loader or a writer that makes the calls of this one, and behaves so.
    pub fn actor<T: Drop>(&self, rt: &impl Abort, manner: Manner, inner: T) -> Actor<T> {
        Actor::new(manner, self.signals.again(rt), inner)
    }

    /// A loader from the store, which counts its calls.
    pub fn loader<R: Abort + Wait + Drop + Copy>(&self, rt: R) -> Counting<StoreLoader<R>, R> {
        let loader = self.store.loader(rt).expect(&rt, "memory");
        self.counts.counting(rt, loader).expect(&rt, "memory")
    }

    /// A writer to the store, which counts its calls.
    pub fn writer<R: Abort + Wait + Drop + Copy>(&self, rt: R) -> Counting<StoreWriter<R>, R> {
        let writer = self.store.writer(rt).expect(&rt, "memory");
        self.counts.counting(rt, writer).expect(&rt, "memory")
    }

    /// The loader was called so often, and the writer to write and to delete.
    pub fn counted<R: Abort + Wait>(&self, rt: &R, counts: &str) {
        let counted = self.counts.now(rt);
        let mut wanted = counts.split(' ');
        for count in [counted.loads, counted.writes, counted.deletes] {
            is(rt, wanted.next().and_then(|w| w.parse().ok()), Some(count));
        }
    }

    /// The store is to have these entries.
    pub fn holds<R: Abort + Wait>(&self, rt: &R, alloc: Global, wanted: &str) {
        let entries = self.store.entries(rt, alloc).expect(rt, "memory");
        let mut pairs = wanted.split_whitespace();
        for (key, value) in &entries {
            let (k, v) = pairs
                .next()
                .and_then(|p| p.split_once('='))
                .expect(rt, "a pair");
            is(
                rt,
                (key.bytes(), value.bytes()),
                (k.as_bytes(), v.as_bytes()),
            );
        }
        is(rt, pairs.next(), None);
    }

    /// Each entry of a closed stripe is the store's.
    pub fn has_entries_of<R: Abort + Wait>(&self, rt: &R, alloc: Global, stripe: &ClosedStripe) {
        let mut entries = Vec::new(alloc);
        stripe.append_entries(&mut entries).expect(rt, "memory");
        for (key, value) in &entries {
            is(rt, self.store.read(rt, key), Some(*value));
        }
    }
}

/// The entries that a text names. A dash names none.
pub fn entries_of(rt: &impl Abort, alloc: Global, text: &str) -> Vec<(Key, Value)> {
    let mut entries = Vec::new(alloc);
    for pair in text.split(' ') {
        if let Some((at, word)) = pair.split_once('=') {
            let entry = (key(rt, at), value(rt, word));
            entries.push(entry).ok().expect(rt, "memory");
        }
    }
    entries
}
