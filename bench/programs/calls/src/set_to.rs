//! An entry processor that gets the value and sets another.
use jc_mutentry::{EntryProcessor, MutableEntry};
use jc_outside::CacheLoader;
use jc_types::Value;

/// Sets this value, and returns the one before.
#[derive(Drop)]
pub struct SetTo {
    pub value: Value,
}

impl EntryProcessor for SetTo {
    ghost use Rattle.std.specs.Prelude.{[]};

    ghost process_state = { λ p. [] };

    ghost processes = { λ p key args calls answers answer after. Unit {0} };

    fn process(
        &mut self,
        entry: &mut MutableEntry,
        loader: &mut dyn CacheLoader,
        _args: &[Value],
    ) -> Result<Option<Value>, u32> {
        let old = entry.get_value(loader)?;
        entry.set_value(&self.value);
        Ok(old)
    }
}
