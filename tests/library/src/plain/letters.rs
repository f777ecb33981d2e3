//! A store of letters.
use jc_plain::{Load, Write};
use jc_types::{Key, Value};

/// It has each small letter as its own value, and nothing at any other key. At each capital letter it fails, with the letter as the
/// code; a delete fails with the small letter.
#[derive(Drop)]
pub struct Letters {
    /// The number of its calls.
    pub calls: u32,
    /// The value that it was last asked to write.
    pub last: Option<Value>,
}

impl Letters {
    pub fn new() -> Self {
        Letters {
            calls: 0,
            last: None,
        }
    }

    fn call(&mut self, key: &Key) -> Result<Option<Value>, u32> {
        self.calls = self.calls.saturating_add(1);
        match key.bytes().first() {
            Some(byte) if byte.is_ascii_uppercase() => Err(u32::from(*byte)),
            Some(byte) if byte.is_ascii_lowercase() => Ok(Value::new(&[*byte]).ok()),
            Some(_) | None => Ok(None),
        }
    }
}

impl Load for Letters {
    fn load(&mut self, key: &Key) -> Result<Option<Value>, u32> {
        self.call(key)
    }
}

impl Write for Letters {
    fn write(&mut self, key: &Key, value: &Value) -> Result<(), u32> {
        self.last = Some(*value);
        self.call(key)?;
        Ok(())
    }

    fn delete(&mut self, key: &Key) -> Result<(), u32> {
        match self.call(key) {
            Ok(_) => Ok(()),
            Err(code) => Err(code ^ 32),
        }
    }
}
