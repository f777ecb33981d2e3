//! What is outside a cache: a store, the counts of its loaders' and writers' calls and their failures, a listener, and signals.
use super::scene::Scene;
use super::signals::Signals;
use super::unreliable::{Failures, Manner, Unreliable};
use super::*;
use crate::common::listening::{Hearing, Listener};
use crate::common::words::{first_word, key_list, pair, pair_list};
use crate::doubles::{LoadFault, ScheduledLoader, ScheduledWriter, WriteFault};
use jc_store::{Counting, SharedCounts, SharedStore, Store, StoreLoader, StoreWriter};

/// A store with some entries, the counts of its loaders' and writers' calls, and the failures of each session's loader and writer.
#[derive(Drop)]
pub struct Outside {
    pub store: SharedStore,
    pub signals: Signals,
    counts: SharedCounts,
    failures: Vec<Failures>,
    hearing: Hearing,
}

impl Outside {
    /// A store with these entries.
    pub fn of(rt: &impl Abort, alloc: Global, pairs: &str) -> Self {
        let entries = pair_list(rt, alloc, pairs);
        let store = Store::of(alloc, &entries).expect(rt, "memory");
        Outside {
            store: SharedStore::new(alloc, store).expect(rt, "memory"),
            signals: Signals::new(alloc).expect(rt, "memory"),
            counts: SharedCounts::new(alloc).expect(rt, "memory"),
            failures: Failures::of_each(rt, alloc),
            hearing: Hearing::new(rt, alloc),
        }
    }

    /// The failures of the loader and the writer of the session at this place.
    pub fn failures(&self, rt: &impl Abort, place: usize) -> &Failures {
        self.failures.get(place).expect(rt, "failures")
    }

    /// This loader or writer, as it is to go on in the session at this place.
    fn acting<T: Drop>(
        &self,
        rt: &impl Abort,
        every: u32,
        waits: bool,
        place: usize,
        inner: T,
    ) -> Unreliable<T> {
        let manner = Manner {
            every,
            waits,
            is_first: place == 0,
        };
        Unreliable::new(rt, manner, &self.signals, self.failures(rt, place), inner)
    }

    /// A loader from the store, which counts its calls, and gives the scene's answers, too.
    pub fn loader<R: Abort + Wait + Drop + Copy>(
        &self,
        rt: R,
        alloc: Global,
        scene: &Scene,
        place: usize,
    ) -> Unreliable<Counting<ScheduledLoader<StoreLoader<R>>, R>> {
        let loader = self.store.loader(rt).expect(&rt, "memory");
        let (call, fault) = answers_of(&rt, alloc, scene.fault);
        let loader = ScheduledLoader::new(loader, call, fault);
        let loader = self.counts.counting(rt, loader).expect(&rt, "memory");
        self.acting(&rt, scene.every, scene.loaders_wait, place, loader)
    }

    /// A writer to the store, which counts its calls, and has the scene's fault.
    pub fn writer<R: Abort + Wait + Drop + Copy>(
        &self,
        rt: R,
        alloc: Global,
        scene: &Scene,
        place: usize,
    ) -> Unreliable<Counting<ScheduledWriter<StoreWriter<R>>, R>> {
        let writer = self.store.writer(rt).expect(&rt, "memory");
        let (call, fault) = fault_of(&rt, alloc, scene.fault);
        let writer = ScheduledWriter::new(writer, call, fault);
        let writer = self.counts.counting(rt, writer).expect(&rt, "memory");
        self.acting(&rt, scene.every, scene.writers_wait, place, writer)
    }

    /// A listener that counts what it is told.
    pub fn listener(&self, rt: &impl Abort, alloc: Global) -> Listener {
        self.hearing.listener(rt, alloc)
    }

    /// The listeners were told so often of success, and of a failure.
    pub fn has_told(&self, rt: &impl Abort, words: &str) {
        let (completions, exceptions) = self.hearing.told();
        let mut wanted = words.split_whitespace();
        for count in [completions, exceptions] {
            is(rt, wanted.next().and_then(|w| w.parse().ok()), Some(count));
        }
    }

    /// The loader was called so often for one key and for many, the writer to write and to delete so.
    pub fn counted<R: Abort + Wait>(&self, rt: &R, words: &str) {
        let c = self.counts.now(rt);
        let counts = [
            c.loads,
            c.load_batches,
            c.writes,
            c.write_batches,
            c.deletes,
            c.delete_batches,
        ];
        let mut wanted = words.split_whitespace();
        for count in counts {
            is(rt, wanted.next().and_then(|w| w.parse().ok()), Some(count));
        }
    }

    /// The store is to have these entries.
    pub fn holds<R: Abort + Wait>(&self, rt: &R, alloc: Global, wanted: &str) {
        let entries = self.store.entries(rt, alloc).expect(rt, "memory");
        are_entries(rt, &entries, wanted);
    }
}

/// The entries are these, in this order.
pub fn are_entries(rt: &impl Abort, entries: &[(Key, Value)], wanted: &str) {
    let mut words = wanted.split_whitespace();
    for (k, v) in entries {
        let word = words.next().expect(rt, wanted);
        is(rt, (*k, *v), pair(rt, word));
    }
    is(rt, words.next(), None);
}

/// The fault that a text tells: at which call, if any, with which code, if any, and which keys are left. It adds z=9.
fn fault_of(rt: &impl Abort, alloc: Global, text: &str) -> (u64, WriteFault) {
    let (call, rest) = first_word(text);
    let (code, left) = first_word(rest);
    let fault = WriteFault {
        leaves: key_list(rt, alloc, left),
        code: code.parse().ok(),
        adds: pair_list(rt, alloc, "z=9"),
    };
    (call.parse().ok().unwrap_or(0), fault)
}

/// The answers that a text tells after `answers`, which a loader gives at its first call, and at which call it gives them, if at any.
fn answers_of(rt: &impl Abort, alloc: Global, text: &str) -> (u64, LoadFault) {
    let (word, pairs) = first_word(text);
    if word == "answers" {
        (1, LoadFault::AlsoAnswers(pair_list(rt, alloc, pairs)))
    } else {
        (0, LoadFault::AlsoAnswers(Vec::new(alloc)))
    }
}
