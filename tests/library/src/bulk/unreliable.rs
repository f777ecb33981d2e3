//! Loaders and writers that fail now and then, and note for which keys they have failed; or that wait for each other.
use super::signals::Signals;
use super::*;
use indexmap::{IndexMap, IndexSet};
use jc_cache::Answers;
use std::alloc::AllocError;
use std::sync::Arc;
use std::sync::atomic::AtomicU64;
use std::sync::atomic::Ordering::SeqCst;

/// The codes of loaders and writers that fail, each of a session.
const CODES: [u32; 4] = [5, 7, 9, 11];

/// Whether a session's loader and writer fail with this code.
pub fn is_failure_code(code: u32) -> bool {
    CODES.contains(&code)
}

/// The code of one that has waited in vain.
const GAVE_UP: u32 = 99;

/// A set of the keys `00` to `63`, a bit for each.
#[derive(Clone, Copy, PartialEq, Eq, Debug)]
pub struct Keys(u64);

impl Keys {
    pub const NONE: Keys = Keys(0);

    /// The set of one key.
    fn one(key: &Key) -> Keys {
        let mut number = 0u8;
        for byte in key.bytes() {
            number = number
                .wrapping_mul(10)
                .wrapping_add(byte.wrapping_sub(b'0'));
        }
        Keys(1u64 << (number % 64))
    }

    /// This set with one key more.
    pub fn with(self, key: &Key) -> Keys {
        Keys(self.0 | Keys::one(key).0)
    }

    /// Whether a key is among these.
    pub fn has(self, key: &Key) -> bool {
        Keys::one(key).are_among(self)
    }

    /// Whether all of these keys are among others.
    pub fn are_among(self, others: Keys) -> bool {
        self.0 & others.0 == self.0
    }

    /// Whether none of these keys is among others.
    pub fn are_apart_from(self, others: Keys) -> bool {
        self.0 & others.0 == 0
    }
}

/// The keys for which a session's loader and writer have failed, and the code with which they do.
#[derive(Drop)]
pub struct Failures {
    keys: Arc<AtomicU64>,
    code: u32,
}

impl Failures {
    /// No failures yet, of each session.
    pub fn of_each(rt: &impl Abort, alloc: Global) -> Vec<Failures> {
        let mut all = Vec::new(alloc);
        for code in CODES {
            let none = Failures::new(alloc, code).expect(rt, "memory");
            all.push(none).ok().expect(rt, "memory");
        }
        all
    }

    fn new(alloc: Global, code: u32) -> Result<Failures, AllocError> {
        Ok(Failures {
            keys: Arc::new(alloc, AtomicU64::new(0))?,
            code,
        })
    }

    /// A second handle of them.
    fn share(&self, rt: &impl Abort) -> Failures {
        Failures {
            keys: Arc::try_clone(&self.keys).expect(rt, "memory"),
            code: self.code,
        }
    }

    /// The code with which the loader and the writer fail.
    pub fn code(&self) -> u32 {
        self.code
    }

    /// The call failed for this key, too.
    fn note(&self, key: &Key) {
        let keys = Keys(self.keys.load(SeqCst)).with(key);
        self.keys.store(keys.0, SeqCst);
    }

    /// The keys since this was asked last.
    pub fn take(&self) -> Keys {
        Keys(self.keys.swap(0, SeqCst))
    }
}

/// How a loader or a writer goes on at each call.
#[derive(Clone, Copy)]
pub struct Manner {
    /// It fails once in so many calls, or never.
    pub every: u32,
    /// It says that it was called, and waits until its partner was. Of the two it is the first, or the second.
    pub waits: bool,
    pub is_first: bool,
}

/// A loader or a writer that waits for its partner or fails now and then, and otherwise does what another one does. A writer that
/// fails at a batch has the other do the first half of it, and leaves the rest.
#[derive(Drop)]
pub struct Unreliable<T> {
    manner: Manner,
    calls: u32,
    signals: Signals,
    failures: Failures,
    inner: T,
}

impl<T: Drop> Unreliable<T> {
    pub fn new(
        rt: &impl Abort,
        manner: Manner,
        signals: &Signals,
        failures: &Failures,
        inner: T,
    ) -> Self {
        Unreliable {
            manner,
            calls: 0,
            signals: signals.share(rt),
            failures: failures.share(rt),
            inner,
        }
    }
}

impl<T> Unreliable<T> {
    /// Waits if it is to wait, counts the call, and says with which code it is to fail, if it is.
    fn begin(&mut self) -> Option<u32> {
        if self.manner.waits && !self.signals.meet(self.manner.is_first) {
            return Some(GAVE_UP);
        }
        self.calls = self.calls.wrapping_add(1);
        if self.manner.every > 0 && self.calls % self.manner.every == 0 {
            return Some(self.failures.code);
        }
        None
    }

    /// The call failed for these keys.
    fn note_all(&self, keys: &[Key]) {
        for key in keys {
            self.failures.note(key);
        }
    }

    /// The call failed for the keys of these entries.
    fn note_entries(&self, entries: &IndexMap<Key, Value>) {
        for (key, _value) in entries {
            self.failures.note(key);
        }
    }
}

impl<L: CacheLoader> CacheLoader for Unreliable<L> {
    ghost load_state = { ? };

    ghost loads = { ? };

    ghost loads_all = { ? };

    fn load(&mut self, key: &Key) -> Result<Option<Value>, u32> {
        if let Some(code) = self.begin() {
            self.failures.note(key);
            return Err(code);
        }
        self.inner.load(key)
    }

    fn load_all(&mut self, keys: &[Key], answers: &mut Answers) -> Result<(), u32> {
        if let Some(code) = self.begin() {
            self.note_all(keys);
            return Err(code);
        }
        self.inner.load_all(keys, answers)
    }
}

/// Writes the first half of these entries, up to the first that fails, and says how many.
fn write_half<W: CacheWriter>(inner: &mut W, entries: &IndexMap<Key, Value>) -> usize {
    let mut written = 0usize;
    for (key, value) in entries {
        if written >= entries.len() / 2 || inner.write(key, value).is_err() {
            break;
        }
        written = written.saturating_add(1);
    }
    written
}

/// Deletes what is at the first half of these keys, up to the first that fails, and says how many.
fn delete_half<W: CacheWriter>(inner: &mut W, keys: &[Key]) -> usize {
    let mut deleted = 0usize;
    for key in keys {
        if deleted >= keys.len() / 2 || inner.delete(key).is_err() {
            break;
        }
        deleted = deleted.saturating_add(1);
    }
    deleted
}

impl<W: CacheWriter> CacheWriter for Unreliable<W> {
    ghost write_state = { ? };

    ghost writes = { ? };

    ghost writes_all = { ? };

    ghost deletes_all = { ? };

    fn write(&mut self, key: &Key, value: &Value) -> Result<(), u32> {
        if let Some(code) = self.begin() {
            self.failures.note(key);
            return Err(code);
        }
        self.inner.write(key, value)
    }

    fn delete(&mut self, key: &Key) -> Result<(), u32> {
        if let Some(code) = self.begin() {
            self.failures.note(key);
            return Err(code);
        }
        self.inner.delete(key)
    }

    fn write_all(&mut self, entries: &mut IndexMap<Key, Value>) -> Result<(), u32> {
        let Some(code) = self.begin() else {
            return self.inner.write_all(entries);
        };
        let written = write_half(&mut self.inner, entries);
        let left = entries.len().saturating_sub(written);
        keep_last(entries, left);
        self.note_entries(entries);
        Err(code)
    }

    fn delete_all(&mut self, keys: &mut IndexSet<Key>) -> Result<(), u32> {
        let Some(code) = self.begin() else {
            return self.inner.delete_all(keys);
        };
        let deleted = delete_half(&mut self.inner, keys.as_slice());
        let left = keys.len().saturating_sub(deleted);
        keep_last_keys(keys, left);
        self.note_all(keys.as_slice());
        Err(code)
    }
}

/// Takes entries out from the front, until so many are left.
fn keep_last(entries: &mut IndexMap<Key, Value>, left: usize) {
    let out = entries.len().saturating_sub(left);
    entries.drain(..out);
}

/// Takes keys out from the front, until so many are left.
fn keep_last_keys(keys: &mut IndexSet<Key>, left: usize) {
    let out = keys.len().saturating_sub(left);
    keys.drain(..out);
}
