//! Writers with a fault at one of their calls.
use crate::doubles::schedule::count_down;
use indexmap::{IndexMap, IndexSet};
use jc_batch::Leftover;
use jc_model::is_among;
use jc_outside::CacheWriter;
use jc_store::NO_MEMORY;
use jc_types::{Key, Value};

/// The fault of a writer at its scheduled call.
///
/// At a `write` or a `delete` it fails with the code, and the wrapped writer isn't called; without a code the wrapped writer is
/// called as usual. At a `write_all` or a `delete_all` it keeps some keys back, calls the wrapped writer for the others, and adds
/// to the collection. Then it fails with the code; without a code it returns what the wrapped writer did. If an allocation fails
/// before that, it returns [`NO_MEMORY`], leaves all, and doesn't call the wrapped writer.
#[derive(Drop)]
pub struct WriteFault {
    /// The keys that it keeps back: if they are in the collection, they are left there.
    pub leaves: Vec<Key>,
    /// The code with which it fails, if it fails.
    pub code: Option<u32>,
    /// The entries that it adds to the collection; at a `delete_all`, only their keys. A key that is there already stays in its
    /// place.
    pub adds: Vec<(Key, Value)>,
}

impl WriteFault {
    /// The code with which a call for one key fails, if it fails.
    fn failure(&self, is_due: bool) -> Option<u32> {
        if is_due { self.code } else { None }
    }
}

/// A writer that forwards each call to another one (`inner`), except one, at which it has a fault.
#[derive(Drop)]
pub struct ScheduledWriter<W> {
    inner: W,
    left: u64,
    fault: WriteFault,
}

impl<W> ScheduledWriter<W> {
    /// This writer, with a fault at the call with this number, counted from 1: all four methods count. At 0 there is no fault.
    pub fn new(inner: W, call: u64, fault: WriteFault) -> Self {
        ScheduledWriter {
            inner,
            left: call,
            fault,
        }
    }
}

impl<W: CacheWriter> CacheWriter for ScheduledWriter<W> {
    ghost write_state = { ? };

    ghost writes = { ? };

    ghost writes_all = { ? };

    ghost deletes_all = { ? };

    fn write(&mut self, key: &Key, value: &Value) -> Result<(), u32> {
        let is_due = count_down(&mut self.left);
        if let Some(code) = self.fault.failure(is_due) {
            return Err(code);
        }
        self.inner.write(key, value)
    }

    fn delete(&mut self, key: &Key) -> Result<(), u32> {
        let is_due = count_down(&mut self.left);
        if let Some(code) = self.fault.failure(is_due) {
            return Err(code);
        }
        self.inner.delete(key)
    }

    fn write_all(&mut self, entries: &mut IndexMap<Key, Value>) -> Result<(), u32> {
        if !count_down(&mut self.left) {
            return self.inner.write_all(entries);
        }
        write_part(&mut self.inner, &self.fault, entries)
    }

    fn delete_all(&mut self, keys: &mut IndexSet<Key>) -> Result<(), u32> {
        if !count_down(&mut self.left) {
            return self.inner.delete_all(keys);
        }
        delete_part(&mut self.inner, &self.fault, keys)
    }
}

/// The scheduled `write_all`.
fn write_part<W: CacheWriter>(
    inner: &mut W,
    fault: &WriteFault,
    entries: &mut IndexMap<Key, Value>,
) -> Result<(), u32> {
    let Ok(mut told) = entries.clone() else {
        return Err(NO_MEMORY);
    };
    told.retain(|key, _value| !is_among(&fault.leaves, key));
    if entries.reserve(fault.adds.len()).is_err() {
        return Err(NO_MEMORY);
    }
    let said = inner.write_all(&mut told);
    entries.retain(|key, _value| is_among(&fault.leaves, key) || told.is_left(key));
    for (key, value) in &fault.adds {
        if entries.insert(*key, *value).is_err() {
            return Err(NO_MEMORY);
        }
    }
    fault.code.map_or(said, Err)
}

/// The scheduled `delete_all`.
fn delete_part<W: CacheWriter>(
    inner: &mut W,
    fault: &WriteFault,
    keys: &mut IndexSet<Key>,
) -> Result<(), u32> {
    let Ok(mut told) = keys.clone() else {
        return Err(NO_MEMORY);
    };
    told.retain(|key| !is_among(&fault.leaves, key));
    if keys.reserve(fault.adds.len()).is_err() {
        return Err(NO_MEMORY);
    }
    let said = inner.delete_all(&mut told);
    keys.retain(|key| is_among(&fault.leaves, key) || told.is_left(key));
    for (key, _value) in &fault.adds {
        if keys.insert(*key).is_err() {
            return Err(NO_MEMORY);
        }
    }
    fault.code.map_or(said, Err)
}
