//! What loaders and writers have failed at, noted as they answer.
use super::*;
use indexmap::{IndexMap, IndexSet};
use jc_batch::Leftover;
use jc_cache::Answers;
use std::mem;
use std::sync::{Arc, Mutex};

/// How often a session's loader and its writer were called; and of those calls that were not read yet, the first fault, and each
/// key that failed.
#[derive(Drop)]
pub struct Noted {
    pub loads: u64,
    pub writes: u64,
    pub cause: Option<Refusal>,
    pub failed: IndexMap<Key, Refusal>,
}

impl Noted {
    fn new(alloc: Global, loads: u64, writes: u64) -> Self {
        Noted {
            loads,
            writes,
            cause: None,
            failed: IndexMap::new(alloc),
        }
    }

    fn fail(&mut self, why: Refusal) {
        if self.cause.is_none() {
            self.cause = Some(why);
        }
    }

    /// Each of these keys has failed.
    pub fn fail_at(&mut self, rt: &impl Abort, keys: &[Key], why: Refusal) {
        for key in keys {
            self.fail(why);
            let _old = self.failed.insert(*key, why).ok().expect(rt, "memory");
        }
    }

    fn note_load(&mut self, rt: &impl Abort, keys: &[Key], fault: Option<u32>) {
        self.loads = self.loads.saturating_add(1);
        if let Some(code) = fault {
            self.fail_at(rt, keys, Refusal::LoaderFailed(code));
        }
    }

    /// The writer has left these keys. One that has returned normally left them with the code 0.
    fn note_write(&mut self, rt: &impl Abort, left: &[Key], fault: Option<u32>) {
        self.writes = self.writes.saturating_add(1);
        if let Some(code) = fault {
            self.fail(Refusal::WriterFailed(code));
        }
        self.fail_at(rt, left, Refusal::WriterFailed(fault.unwrap_or(0)));
    }

    /// What was noted, which is read now: the counts go on.
    fn take(&mut self, alloc: Global) -> Noted {
        let fresh = Noted::new(alloc, self.loads, self.writes);
        mem::replace(self, fresh)
    }
}

/// What the loader and the writer of one session note.
#[derive(Drop)]
pub struct Log {
    noted: Arc<Mutex<Noted>, Global>,
}

impl Log {
    pub fn new(rt: &impl Abort, alloc: Global) -> Self {
        let noted = Mutex::new(Noted::new(alloc, 0, 0));
        Log {
            noted: Arc::new(alloc, noted).ok().expect(rt, "memory"),
        }
    }

    /// What was noted since it was last taken.
    pub fn take<R: Wait>(&self, rt: &R, alloc: Global) -> Noted {
        self.noted.lock(rt).take(alloc)
    }

    /// A loader or a writer that notes here what this one answers.
    pub fn watching<T: Drop, R: Abort + Wait + Drop>(
        &self,
        rt: R,
        alloc: Global,
        inner: T,
    ) -> Watched<T, R> {
        let noted = Arc::try_clone(&self.noted).ok().expect(&rt, "memory");
        Watched {
            rt,
            alloc,
            noted,
            inner,
        }
    }
}

/// A loader or a writer that makes each call of another, and notes what that one answered.
#[derive(Drop)]
pub struct Watched<T, R: Abort + Wait + Drop> {
    rt: R,
    alloc: Global,
    noted: Arc<Mutex<Noted>, Global>,
    inner: T,
}

impl<T, R: Abort + Wait + Drop> Watched<T, R> {
    fn note_load(&self, keys: &[Key], fault: Option<u32>) {
        self.noted.lock(&self.rt).note_load(&self.rt, keys, fault);
    }

    fn note_write(&self, left: &[Key], fault: Option<u32>) {
        self.noted.lock(&self.rt).note_write(&self.rt, left, fault);
    }

    /// The writer was asked for this key alone.
    fn note_one(&self, key: &Key, fault: Option<u32>) {
        let key = [*key];
        self.note_write(if fault.is_some() { &key } else { &[] }, fault);
    }

    /// The writer was asked for these keys, and has left this.
    fn note_left<L: Leftover>(&self, asked: &[Key], left: &L, fault: Option<u32>) {
        let mut keys = Vec::new(self.alloc);
        for key in asked {
            if left.is_left(key) {
                keys.push(*key).ok().expect(&self.rt, "memory");
            }
        }
        self.note_write(&keys, fault);
    }
}

fn asked_of(rt: &impl Abort, alloc: Global, entries: &IndexMap<Key, Value>) -> Vec<Key> {
    let mut asked = Vec::new(alloc);
    for (key, _value) in entries {
        asked.push(*key).ok().expect(rt, "memory");
    }
    asked
}

/// The code of a load that has failed.
fn code_of(answer: &Result<Option<Value>, u32>) -> Option<u32> {
    match answer {
        Ok(_found) => None,
        Err(code) => Some(*code),
    }
}

impl<L: CacheLoader, R: Abort + Wait + Drop> CacheLoader for Watched<L, R> {
    ghost load_state = { ? };

    ghost loads = { ? };

    ghost loads_all = { ? };

    fn load(&mut self, key: &Key) -> Result<Option<Value>, u32> {
        let answer = self.inner.load(key);
        self.note_load(&[*key], code_of(&answer));
        answer
    }

    fn load_all(&mut self, keys: &[Key], answers: &mut Answers) -> Result<(), u32> {
        let answer = self.inner.load_all(keys, answers);
        self.note_load(keys, answer.err());
        answer
    }
}

impl<W: CacheWriter, R: Abort + Wait + Drop> CacheWriter for Watched<W, R> {
    ghost write_state = { ? };

    ghost writes = { ? };

    ghost writes_all = { ? };

    ghost deletes_all = { ? };

    fn write(&mut self, key: &Key, value: &Value) -> Result<(), u32> {
        let answer = self.inner.write(key, value);
        self.note_one(key, answer.err());
        answer
    }

    fn delete(&mut self, key: &Key) -> Result<(), u32> {
        let answer = self.inner.delete(key);
        self.note_one(key, answer.err());
        answer
    }

    fn write_all(&mut self, entries: &mut IndexMap<Key, Value>) -> Result<(), u32> {
        let asked = asked_of(&self.rt, self.alloc, entries);
        let answer = self.inner.write_all(entries);
        self.note_left(&asked, entries, answer.err());
        answer
    }

    fn delete_all(&mut self, keys: &mut IndexSet<Key>) -> Result<(), u32> {
        let asked = keys
            .as_slice()
            .to_vec(self.alloc)
            .ok()
            .expect(&self.rt, "memory");
        let answer = self.inner.delete_all(keys);
        self.note_left(&asked, keys, answer.err());
        answer
    }
}
