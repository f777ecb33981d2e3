//! Loaders and writers that fail now and then.
use indexmap::{IndexMap, IndexSet};
use jc_cache::{Answers, CacheLoader, CacheWriter, Key, Value};

/// The code of a loader or a writer that fails.
const DOWN: u32 = 7;

/// A loader or a writer that fails once in so many calls, or never at 0, and otherwise does what another one does.
#[derive(Drop)]
pub struct Unreliable<T> {
    every: u32,
    calls: u32,
    inner: T,
}

impl<T> Unreliable<T> {
    /// One that fails at the last of so many calls.
    pub fn new(every: u32, inner: T) -> Self {
        Unreliable {
            every,
            calls: 0,
            inner,
        }
    }

    /// Counts a call, and says whether it is to be done.
    fn check(&mut self) -> Result<(), u32> {
        self.calls = self.calls.wrapping_add(1);
        if self.every > 0 && self.calls % self.every == 0 {
            Err(DOWN)
        } else {
            Ok(())
        }
    }
}

impl<L: CacheLoader> CacheLoader for Unreliable<L> {
    ghost load_state = { λ l. L.load_state l.inner };

    ghost loads = { λ l key answer after. Unit {0} };

    ghost loads_all = { λ l keys answer answers after. Unit {0} };

    fn load(&mut self, key: &Key) -> Result<Option<Value>, u32> {
        self.check()?;
        self.inner.load(key)
    }

    fn load_all(&mut self, keys: &[Key], answers: &mut Answers) -> Result<(), u32> {
        self.check()?;
        self.inner.load_all(keys, answers)
    }
}

impl<W: CacheWriter> CacheWriter for Unreliable<W> {
    ghost write_state = { λ w. W.write_state w.inner };

    ghost writes = { λ w key change answer after. Unit {0} };

    ghost writes_all = { λ w entries answer left after. Unit {0} };

    ghost deletes_all = { λ w keys answer left after. Unit {0} };

    fn write(&mut self, key: &Key, value: &Value) -> Result<(), u32> {
        self.check()?;
        self.inner.write(key, value)
    }

    fn delete(&mut self, key: &Key) -> Result<(), u32> {
        self.check()?;
        self.inner.delete(key)
    }

    fn write_all(&mut self, entries: &mut IndexMap<Key, Value>) -> Result<(), u32> {
        self.check()?;
        self.inner.write_all(entries)
    }

    fn delete_all(&mut self, keys: &mut IndexSet<Key>) -> Result<(), u32> {
        self.check()?;
        self.inner.delete_all(keys)
    }
}
