//! Loaders with a fault at one of their calls.
use crate::doubles::schedule::count_down;
use jc_outside::{Answers, CacheLoader};
use jc_types::{Key, Value};

/// The fault of a loader at its scheduled call.
#[derive(Drop)]
pub enum LoadFault {
    /// It fails with this code. The wrapped loader isn't called, and nothing is answered.
    Fails(u32),
    /// The wrapped loader is called. If this is a `load_all`, these answers are given after it has returned, in their order, also
    /// for keys that weren't asked and for keys that it has answered. A `load` has no place for further answers.
    AlsoAnswers(Vec<(Key, Value)>),
}

impl LoadFault {
    /// The code with which the call fails, if it fails.
    fn failure(&self, is_due: bool) -> Option<u32> {
        match self {
            LoadFault::Fails(code) if is_due => Some(*code),
            LoadFault::Fails(_) | LoadFault::AlsoAnswers(_) => None,
        }
    }

    /// The answers that the call gives beside those of the wrapped loader.
    fn more(&self, is_due: bool) -> &[(Key, Value)] {
        match self {
            LoadFault::AlsoAnswers(more) if is_due => more.as_slice(),
            LoadFault::Fails(_) | LoadFault::AlsoAnswers(_) => &[],
        }
    }
}

/// A loader that forwards each call to another one (`inner`), except one, at which it has a fault.
#[derive(Drop)]
pub struct ScheduledLoader<L> {
    inner: L,
    left: u64,
    fault: LoadFault,
}

impl<L> ScheduledLoader<L> {
    /// This loader, with a fault at the call with this number, counted from 1: `load` and `load_all` both count. At 0 there is no
    /// fault.
    pub fn new(inner: L, call: u64, fault: LoadFault) -> Self {
        ScheduledLoader {
            inner,
            left: call,
            fault,
        }
    }
}

impl<L: CacheLoader> CacheLoader for ScheduledLoader<L> {
    ghost load_state = { ? };

    ghost loads = { ? };

    ghost loads_all = { ? };

    fn load(&mut self, key: &Key) -> Result<Option<Value>, u32> {
        let is_due = count_down(&mut self.left);
        if let Some(code) = self.fault.failure(is_due) {
            return Err(code);
        }
        self.inner.load(key)
    }

    fn load_all(&mut self, keys: &[Key], answers: &mut Answers) -> Result<(), u32> {
        let is_due = count_down(&mut self.left);
        if let Some(code) = self.fault.failure(is_due) {
            return Err(code);
        }
        let returned = self.inner.load_all(keys, answers);
        for (key, value) in self.fault.more(is_due) {
            answers.put(key, value);
        }
        returned
    }
}
