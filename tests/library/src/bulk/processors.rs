//! The processors of calls, each by the word of its call.
//!
//!     invokeall a b = a 2, b 1            counts in the entry
//!     changeall a c = a 7, c 7            sets 7 and returns it; at `c` it removes, and returns 7
//!     idleall a b = -                     makes no call on the entry, and returns none
//!     failall a = a ProcessorFailed 3     sets 7 and fails with 3
use super::*;
use crate::common::increment;
use crate::common::words::{key, value};
use jc_cache::MutableEntry;
use jc_store::Increment;

/// The code of a processor that fails.
const FAILED: u32 = 3;

/// Makes no call on its entry, and returns none.
#[derive(Drop)]
struct Idle;

impl EntryProcessor for Idle {
    ghost process_state = { ? };

    ghost processes = { ? };

    fn process(
        &mut self,
        _entry: &mut MutableEntry,
        _loader: &mut dyn CacheLoader,
        _args: &[Value],
    ) -> Result<Option<Value>, u32> {
        Ok(None)
    }
}

/// Sets this value, and fails.
#[derive(Drop)]
struct Failing {
    value: Value,
}

impl EntryProcessor for Failing {
    ghost process_state = { ? };

    ghost processes = { ? };

    fn process(
        &mut self,
        entry: &mut MutableEntry,
        _loader: &mut dyn CacheLoader,
        _args: &[Value],
    ) -> Result<Option<Value>, u32> {
        entry.set_value(&self.value);
        Err(FAILED)
    }
}

/// Sets this value, or removes the entry if it is at this key. It returns the value.
#[derive(Drop)]
struct Changing {
    value: Value,
    removed: Key,
}

impl EntryProcessor for Changing {
    ghost process_state = { ? };

    ghost processes = { ? };

    fn process(
        &mut self,
        entry: &mut MutableEntry,
        _loader: &mut dyn CacheLoader,
        _args: &[Value],
    ) -> Result<Option<Value>, u32> {
        if *entry.key() == self.removed {
            entry.remove();
            return Ok(Some(self.value));
        }
        entry.set_value(&self.value);
        Ok(Some(self.value))
    }
}

/// A processor that counts in its entry.
fn idle_processor(rt: &impl Abort, alloc: Global) -> Processor {
    Box::new(alloc, Idle).ok().expect(rt, "memory")
}

fn failing_processor(rt: &impl Abort, alloc: Global) -> Processor {
    let failing = Failing {
        value: value(rt, "7"),
    };
    Box::new(alloc, failing).ok().expect(rt, "memory")
}

fn changing_processor(rt: &impl Abort, alloc: Global) -> Processor {
    let changing = Changing {
        value: value(rt, "7"),
        removed: key(rt, "c"),
    };
    Box::new(alloc, changing).ok().expect(rt, "memory")
}

/// The processor of the calls with this word.
pub fn processor_of(rt: &impl Abort, alloc: Global, word: &str) -> Processor {
    match word {
        "changeall" => changing_processor(rt, alloc),
        "idleall" => idle_processor(rt, alloc),
        "failall" => failing_processor(rt, alloc),
        _ => increment(rt, alloc),
    }
}
