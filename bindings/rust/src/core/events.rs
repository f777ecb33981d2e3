//! The events of a generation.
use super::{Cause, Code, Effect, Loaded, Op, Reply, Shape, Written};
use super::{check_version, checked, raw, raw_entries, raw_shape};
use std::fmt;

/// An event of a stripe's history: a step of a call, or an eviction.
#[repr(transparent)]
#[derive(Clone)]
pub struct Event(raw::FlatEvent);

/// What happened.
#[derive(Clone, Copy, Debug)]
pub enum What<'e> {
    /// A call's step.
    Step {
        /// The session of its call.
        session: u32,
        /// The call's number.
        call: u64,
        /// What was called.
        op: Op<'e>,
        /// What it was answered.
        reply: Reply<'e>,
        /// If it joined a load: the place of the step that loaded.
        shared_with: Option<u32>,
        /// What was answered outside.
        outside: Outside<'e>,
    },
    /// The key's entry was evicted.
    Eviction(Cause),
}

/// What was answered outside for a step.
#[derive(Clone, Copy, Debug)]
pub struct Outside<'e> {
    /// What the loader answered, if it was asked.
    pub load: Option<Loaded<'e>>,
    /// What the writer answered, if it was asked.
    pub write: Option<Written>,
    /// The net effect of the processor, if one ran.
    pub effect: Option<Effect<'e>>,
    /// What the processor returned.
    pub outcome: Option<&'e [u8]>,
}

impl Event {
    pub(super) fn empty() -> Event {
        Event(raw::FlatEvent::EMPTY)
    }

    pub(super) fn as_raw_mut(&mut self) -> &mut raw::FlatEvent {
        &mut self.0
    }

    /// The key of the step or of the eviction.
    pub fn key(&self) -> &[u8] {
        self.0.key.get()
    }

    /// What happened.
    pub fn what(&self) -> What<'_> {
        let event = &self.0;
        if event.kind == raw::EVENT_EVICTION {
            return What::Eviction(match event.cause {
                raw::CAUSE_MEMORY => Cause::Memory,
                raw::CAUSE_INVALIDATED => Cause::Invalidated,
                _ => Cause::Full,
            });
        }
        What::Step {
            session: event.session,
            call: event.call,
            op: Op::of(event.op, &event.value, &event.other),
            reply: Reply::of(event.reply, event.reply_code, &event.replied),
            shared_with: event.is_shared.then_some(event.shared_with),
            outside: outside_of(&event.outside),
        }
    }
}

fn outside_of(told: &raw::Processed) -> Outside<'_> {
    Outside {
        load: match told.load {
            raw::ANSWER_FOUND => Some(Loaded::Found(told.loaded.get())),
            raw::ANSWER_NOTHING => Some(Loaded::Nothing),
            raw::ANSWER_FAILED => Some(Loaded::Failed(told.load_code)),
            _ => None,
        },
        write: match told.write {
            raw::ANSWER_WRITTEN => Some(Written::Done),
            raw::ANSWER_FAILED => Some(Written::Failed(told.write_code)),
            _ => None,
        },
        effect: match told.effect {
            raw::EFFECT_NOT_RUN => None,
            raw::EFFECT_SET => Some(Effect::Set(told.set.get())),
            raw::EFFECT_REMOVE => Some(Effect::Remove),
            raw::EFFECT_FAILED => Some(Effect::Failed(told.code)),
            _ => Some(Effect::Keep),
        },
        outcome: told.has_outcome.then(|| told.outcome.get()),
    }
}

impl fmt::Debug for Event {
    fn fmt(&self, f: &mut fmt::Formatter<'_>) -> fmt::Result {
        f.debug_struct("Event")
            .field("key", &self.key())
            .field("what", &self.what())
            .finish()
    }
}

/// Whether these events are a legal history of one stripe of a cache of this shape that began with these entries.
///
/// It takes time and memory as long as the history.
///
/// # Errors
/// [`Code::BadArgument`]: an entry is none. [`Code::NoMemory`]. [`Code::WrongVersion`]: the library that was linked is of another
/// version.
pub fn legal(shape: &Shape, opening: &[(&[u8], &[u8])], events: &[Event]) -> Result<bool, Code> {
    check_version()?;
    let shape = raw_shape(shape);
    let opening = raw_entries(opening);
    let mut is_legal = false;
    // SAFETY: an `Event` is a `FlatEvent`; the slices live through the call, and overlap nothing that it writes.
    checked(unsafe {
        raw::jc_legal(
            &shape,
            opening.as_ptr(),
            opening.len(),
            events.as_ptr().cast(),
            events.len(),
            &mut is_legal,
        )
    })?;
    Ok(is_legal)
}
