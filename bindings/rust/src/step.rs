//! What goes into the phases of a call at a stripe, and what comes of them.
use crate::at::At;
use crate::core::{self, Written};
use crate::error::Error;
use crate::lives::Question;
use crate::op::{Op, Reply};
use crate::table::{Failure, Flight, Found, Table, Versioned};
use crate::waiting::{NOBODY, this_thread};
use std::sync::Arc;
use std::time::Duration;

/// The session of calls that are done at once in any case.
pub(crate) const AT_ONCE: u32 = 0;

/// Who failed.
#[derive(Clone, Copy, Debug, PartialEq, Eq)]
pub(crate) enum Fault {
    Loader,
    Writer,
    Processor,
}

/// Why a call stops before its first phase.
#[derive(Clone, Copy, Debug)]
pub(crate) enum Stop {
    Closed,
    HistoryFull,
    WouldDeadlock,
    Limits,
}

impl Stop {
    /// The error of a call that has stopped there.
    pub(crate) fn at<L, W>(self, at: At) -> Error<L, W> {
        match self {
            Stop::Closed => Error::Closed(at),
            Stop::HistoryFull => Error::HistoryFull(at),
            Stop::WouldDeadlock => Error::WouldDeadlock(at),
            Stop::Limits => Error::Limits(at),
        }
    }
}

/// A first phase that is to be made.
pub(crate) struct Call<'a, K, V> {
    pub key: &'a Arc<K>,
    pub hash: u64,
    pub op: &'a Op<V>,
    /// How long the value lives that the operation brings, if it has a life of its own.
    pub life: Option<Duration>,
    /// Who ends the call: this thread, or, of a call in phases, anybody.
    pub owner: Owner,
}

/// Who ends a call that has reserved a key.
#[derive(Clone, Copy, Debug, PartialEq, Eq)]
pub(crate) enum Owner {
    ThisThread,
    Anybody,
}

impl Owner {
    /// By which the register of waits knows it.
    pub(crate) fn number(self) -> u64 {
        match self {
            Owner::ThisThread => this_thread(),
            Owner::Anybody => NOBODY,
        }
    }
}

/// A call that has something out at a stripe.
pub(crate) struct Out<K, V, E> {
    pub key: Arc<K>,
    pub slot: usize,
    pub session: u32,
    pub flight: Arc<Flight<V, E>>,
    /// The value that the operation brings, and its life, if that is its own.
    pub brought: Option<Versioned<V>>,
    pub life: Option<Duration>,
    /// Whether it is a `get`, of which it may be remembered that it found nothing.
    pub is_get: bool,
}

/// What the first phase of a call asks for.
pub(crate) enum First<K, V, E> {
    Done(Reply<V>),
    Load(Out<K, V, E>),
    /// The writer is to write the value that is brought, or to delete the key.
    Write(Out<K, V, E>),
    /// The entry that the processor sees, and whether the loader may be asked.
    Process(Out<K, V, E>, Option<Arc<V>>, bool),
    Joined(Out<K, V, E>, core::Join),
    Busy(Blocked<V, E>),
}

/// What a call waits for that was refused.
pub(crate) enum Blocked<V, E> {
    /// The end of the call that has reserved the key.
    Key(Arc<Flight<V, E>>),
    /// A change of the stripe, after so many.
    Room(u64),
}

/// What a loader answered: the value, none, or why it failed.
pub(crate) type Loaded<V, E> = Result<Option<Arc<V>>, Failure<E>>;

/// The net effect of a processor.
pub(crate) enum Effect<V> {
    Keep,
    Set(Arc<V>),
    Remove,
    Failed,
}

/// What was answered outside.
pub(crate) enum Answer<V, E> {
    Load(Loaded<V, E>),
    Write(Written),
    Process {
        load: Option<Loaded<V, E>>,
        effect: Effect<V>,
        write: Option<Written>,
        /// Whether it has looked at the value.
        has_read: bool,
        /// How long the value lives that it has set, if that has a life of its own.
        life: Option<Duration>,
    },
}

fn has_written(written: &Written) -> bool {
    matches!(written, Written::Done)
}

impl<V, E> Answer<V, E> {
    /// What a call does by it for the life of its key's entry, with the value that counts; nothing if it has failed.
    pub(crate) fn question<K>(
        &self,
        out: &Out<K, V, E>,
        entry: Option<&Versioned<V>>,
    ) -> Option<(Question, Arc<V>)> {
        let comes = match self {
            Answer::Load(load) => load.as_ref().ok()?.clone(),
            Answer::Write(write) => {
                has_written(write).then_some(())?;
                out.brought
                    .as_ref()
                    .and_then(|brought| brought.value.clone())
            }
            Answer::Process {
                load,
                effect,
                write,
                ..
            } => {
                write.as_ref().is_none_or(has_written).then_some(())?;
                let loaded = load.as_ref().map(|load| load.as_ref().ok());
                match (loaded, effect) {
                    (Some(None), _) => return None,
                    (_, Effect::Set(value)) => Some(value.clone()),
                    (Some(Some(found)), Effect::Keep) => found.clone(),
                    _ => None,
                }
            }
        };
        match (comes, entry) {
            (Some(value), None) => Some((Question::Create, value)),
            (Some(value), Some(_)) => Some((Question::Update, value)),
            (None, entry) => {
                let entry = entry.filter(|_| self.has_only_read())?;
                Some((Question::Read, entry.value.clone()?))
            }
        }
    }

    /// Whether a processor has looked at the value, and changed nothing.
    fn has_only_read(&self) -> bool {
        matches!(
            self,
            Answer::Process {
                effect: Effect::Keep,
                has_read: true,
                ..
            }
        )
    }

    /// The life of its own that the value has.
    pub(crate) fn life<K>(&self, out: &Out<K, V, E>) -> Option<Duration> {
        match self {
            Answer::Load(_) => None,
            Answer::Write(_) => out.life,
            Answer::Process { life, .. } => *life,
        }
    }
}

/// The sessions of a desk: each has at most one call out.
pub(crate) struct Sessions {
    free: Vec<u32>,
    last: u32,
    out: usize,
}

impl Sessions {
    pub(crate) fn new() -> Sessions {
        Sessions {
            free: Vec::new(),
            last: AT_ONCE,
            out: 0,
        }
    }

    /// One that has no call out.
    pub(crate) fn next(&self) -> u32 {
        self.free.last().copied().unwrap_or(self.last + 1)
    }

    /// The next one has a call out.
    pub(crate) fn take(&mut self) {
        if self.free.pop().is_none() {
            self.last += 1;
        }
        self.out += 1;
    }

    pub(crate) fn give(&mut self, session: u32) {
        self.free.push(session);
        self.out -= 1;
    }

    pub(crate) fn is_idle(&self) -> bool {
        self.out == 0
    }
}

/// What a load found, with a version. That there is nothing may be remembered.
pub(crate) fn found_of<K, V, E>(
    table: &mut Table<K, V, E>,
    load: &Loaded<V, E>,
    is_remembered: bool,
) -> Found<V, E> {
    match load {
        Ok(None) if !is_remembered => Ok(None),
        Ok(found) => Ok(Some(table.version(found.clone()))),
        Err(failure) => Err(failure.clone()),
    }
}

/// The code that the core has for any failure: what failed is kept beside it.
pub(crate) const FAILED: u32 = 1;

/// What the core is told of a load, at numbers.
pub(crate) fn numbered<'a, V, E>(found: &Found<V, E>, bytes: &'a [u8]) -> core::Loaded<'a> {
    match found {
        Ok(Some(_)) => core::Loaded::Found(bytes),
        Ok(None) => core::Loaded::Nothing,
        Err(_) => core::Loaded::Failed(FAILED),
    }
}

pub(crate) fn bytes_of<V>(value: Option<&Versioned<V>>) -> [u8; 8] {
    value.map_or([0; 8], Versioned::bytes)
}

impl<V> Effect<V> {
    pub(crate) fn numbered<'a>(&self, set: &'a [u8]) -> core::Effect<'a> {
        match self {
            Effect::Keep => core::Effect::Keep,
            Effect::Set(_) => core::Effect::Set(set),
            Effect::Remove => core::Effect::Remove,
            Effect::Failed => core::Effect::Failed(FAILED),
        }
    }
}
