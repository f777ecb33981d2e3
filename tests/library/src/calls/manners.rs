//! How the loaders and writers of a scene behave.
use super::signals::Signals;
use super::*;
use indexmap::{IndexMap, IndexSet};
use jc_outside::Answers;

/// The code of a loader or a writer that fails now and then.
pub const DOWN: u32 = 7;

/// How a loader or a writer behaves.
#[derive(Clone, Copy)]
pub enum Manner {
    /// It does what it is asked for.
    Plain,
    /// It says that it was asked, and waits until it may answer.
    Waits,
    /// It fails with this code.
    Fails(u32),
    /// It fails at each call whose number is a multiple of this one.
    FailsAtEach(u32),
    /// It finds another value at each call: the last digit of the number of the call.
    Rises,
}

/// How a session's loader and its writer behave.
#[derive(Clone, Copy)]
pub struct Manners {
    pub loader: Manner,
    pub writer: Manner,
}

impl Manners {
    pub const PLAIN: Manners = Manners {
        loader: Manner::Plain,
        writer: Manner::Plain,
    };

    /// What two words say, of a loader and of a writer.
    pub fn of(rt: &impl Abort, words: &str) -> Self {
        let (loader, writer) = first_word(words);
        Manners {
            loader: Manner::of(rt, loader),
            writer: Manner::of(rt, writer),
        }
    }
}

impl Manner {
    /// What a word says: `plain`, `waits`, `rises`, `fails7` or `each5`.
    fn of(rt: &impl Abort, word: &str) -> Self {
        match word {
            "plain" => Manner::Plain,
            "waits" => Manner::Waits,
            "rises" => Manner::Rises,
            _ => Manner::with_number(rt, word),
        }
    }

    fn with_number(rt: &impl Abort, word: &str) -> Self {
        match word.strip_prefix("fails") {
            Some(code) => Manner::Fails(code.parse().ok().expect(rt, word)),
            None => {
                let every = word.strip_prefix("each").unwrap_or("");
                Manner::FailsAtEach(every.parse().ok().expect(rt, word))
            }
        }
    }
}

/// A loader or a writer that makes the calls of another one, as its manner allows.
#[derive(Drop)]
pub struct Actor<T> {
    manner: Manner,
    signals: Signals,
    calls: u32,
    inner: T,
}

impl<T> Actor<T> {
    pub fn new(manner: Manner, signals: Signals, inner: T) -> Self {
        Actor {
            manner,
            signals,
            calls: 0,
            inner,
        }
    }

    /// Counts a call, and says whether it is to be done.
    fn act(&mut self) -> Result<(), u32> {
        self.calls = self.calls.wrapping_add(1);
        match self.manner {
            Manner::Plain | Manner::Rises => Ok(()),
            Manner::Waits => self.signals.wait_as_asked(),
            Manner::Fails(code) => Err(code),
            Manner::FailsAtEach(every) => {
                if every > 0 && self.calls % every == 0 {
                    Err(DOWN)
                } else {
                    Ok(())
                }
            }
        }
    }

    /// The last digit of the number of the call as a value, if it rises.
    fn risen(&self) -> Option<Value> {
        match self.manner {
            Manner::Rises => Value::new(&[b'0' + (self.calls % 10) as u8]).ok(),
            Manner::Plain | Manner::Waits | Manner::Fails(_) | Manner::FailsAtEach(_) => None,
        }
    }
}

impl<L: CacheLoader> CacheLoader for Actor<L> {
    ghost load_state = { ? };

    ghost loads = { ? };

    ghost loads_all = { ? };

    fn load(&mut self, key: &Key) -> Result<Option<Value>, u32> {
        self.act()?;
        match self.risen() {
            Some(value) => Ok(Some(value)),
            None => self.inner.load(key),
        }
    }

    fn load_all(&mut self, keys: &[Key], answers: &mut Answers) -> Result<(), u32> {
        self.act()?;
        self.inner.load_all(keys, answers)
    }
}

impl<W: CacheWriter> CacheWriter for Actor<W> {
    ghost write_state = { ? };

    ghost writes = { ? };

    ghost writes_all = { ? };

    ghost deletes_all = { ? };

    fn write(&mut self, key: &Key, value: &Value) -> Result<(), u32> {
        self.act()?;
        self.inner.write(key, value)
    }

    fn delete(&mut self, key: &Key) -> Result<(), u32> {
        self.act()?;
        self.inner.delete(key)
    }

    fn write_all(&mut self, entries: &mut IndexMap<Key, Value>) -> Result<(), u32> {
        self.act()?;
        self.inner.write_all(entries)
    }

    fn delete_all(&mut self, keys: &mut IndexSet<Key>) -> Result<(), u32> {
        self.act()?;
        self.inner.delete_all(keys)
    }
}
