//! One stripe of the core: a machine of phases, without I/O, lock or thread.
//!
//! [`Desk`] is the library's own interface in safe Rust. It is for hosts that keep their own locks; [`Cache`](crate::Cache) and
//! [`BytesCache`](crate::BytesCache) are built over it. A call begins with [`Desk::begin`]. If that asks for the loader, the writer or
//! a processor, the host asks it and then commits the ticket. [`Moves`] says which values came and went with a step. What is wrong is
//! answered by a [`Code`], with nothing done.
//!
//! What a desk can't test, its host owes: between a ticket and its commit the loader, writer or processor was asked once, at the
//! ticket's key, and the commit says what it answered; a ticket is withdrawn only if nobody was asked.
//!
//! No call of a desk waits.
#![allow(unsafe_code)]

mod events;
mod forgetting;
mod words;

use cadwrelch_sys as raw;
pub use events::{Event, Outside, What, legal};
use std::fmt;
pub use words::{
    Asked, Cause, Code, Done, Effect, Invalidated, Join, Loaded, Moves, Op, PickedUp, Processed,
    Refusal, Reply, Shape, Statistics, Swept, Ticket, Written,
};

/// The most bytes of a key; it has at least one.
pub const KEY_MAX: usize = raw::KEY_MAX;
/// The most bytes of a value.
pub const VALUE_MAX: usize = raw::VALUE_MAX;
/// The most stripes of a cache.
pub const STRIPES_MAX: usize = raw::STRIPES_MAX;
/// The most entries of a stripe.
pub const CAPACITY_MAX: usize = raw::CAPACITY_MAX;
/// The fewest and the most events of a generation.
pub const HISTORY: std::ops::RangeInclusive<usize> = raw::HISTORY_MIN..=raw::HISTORY_MAX;
/// The version of the library that this crate is written for: 1,000,000 * major + 1,000 * minor + patch.
pub const VERSION: u32 = raw::VERSION;

/// The version of the library that was linked.
pub fn version() -> u32 {
    // SAFETY: it has no requirement.
    unsafe { raw::jc_version() }
}

/// Before 1.0 the structs of the interface may change with the minor number.
fn check_version() -> Result<(), Code> {
    if version() / 1000 == VERSION / 1000 {
        Ok(())
    } else {
        Err(Code::WrongVersion)
    }
}

/// The handle and the room for answers, at one address as long as the desk is there.
struct Room {
    handle: raw::Handle,
    out: raw::Out,
}

/// One stripe.
///
/// A desk is closed when it is dropped. If a ticket or a join is out then, its memory isn't freed.
pub struct Desk {
    room: Box<Room>,
}

// SAFETY: what a handle names is plain memory of the heap; the library has no lock, no thread and no thread-local.
unsafe impl Send for Desk {}

#[inline]
fn checked(code: u32) -> Result<(), Code> {
    Err(match code {
        raw::OK => return Ok(()),
        raw::CODE_WRONG_HANDLE => Code::WrongHandle,
        raw::CODE_NO_MEMORY => Code::NoMemory,
        raw::CODE_BAD_ARGUMENT => Code::BadArgument,
        raw::CODE_MISUSE => Code::Misuse,
        raw::CODE_IN_USE => Code::InUse,
        _ => unreachable!("the core answered code {code}"),
    })
}

/// What a phase's answer says.
trait Answer {
    fn reply(&self) -> Reply<'_>;
    fn moves(&self) -> Moves<'_>;
    /// The end of a call; of a first phase `shared` isn't written, and nobody shares.
    fn done(&self, shared: u32) -> Done<'_>;
    fn asked(&self, session: u32) -> Asked<'_>;
    fn refusal(&self) -> Refusal;
}

impl Answer for raw::Out {
    #[inline]
    fn reply(&self) -> Reply<'_> {
        Reply::of(self.reply, self.code, &self.value)
    }

    #[inline]
    fn moves(&self) -> Moves<'_> {
        let has = |flag| self.moves & flag != 0;
        Moves {
            is_kept: has(raw::MOVE_STORED),
            left: has(raw::MOVE_REMOVED).then(|| self.left.get()),
            victim: has(raw::MOVE_EVICTED).then(|| (self.victim.get(), self.evicted.get())),
            own: if has(raw::MOVE_OWN_EVICTED_FULL) {
                Some(Cause::Full)
            } else if has(raw::MOVE_OWN_EVICTED_MEMORY) {
                Some(Cause::Memory)
            } else if has(raw::MOVE_INVALIDATED) {
                Some(Cause::Invalidated)
            } else {
                None
            },
        }
    }

    #[inline]
    fn done(&self, shared: u32) -> Done<'_> {
        Done {
            reply: self.reply(),
            place: self.place,
            shared,
            moves: self.moves(),
        }
    }

    #[inline]
    fn asked(&self, session: u32) -> Asked<'_> {
        let ticket = Ticket(self.number);
        match self.next {
            raw::NEXT_DONE => Asked::Done(self.done(0)),
            raw::ASK_LOAD => Asked::Load(ticket),
            raw::ASK_WRITE => Asked::Write(ticket, self.value.get()),
            raw::ASK_DELETE => Asked::Delete(ticket),
            raw::ASK_PROCESS => Asked::Process {
                ticket,
                entry: (self.reply == raw::REPLY_VALUE).then(|| self.value.get()),
                may_load: self.code == 1,
            },
            raw::NEXT_JOINED => Asked::Joined(Join {
                session,
                call: self.call,
                load: self.number,
            }),
            raw::NEXT_REFUSED => Asked::Refused(self.refusal()),
            raw::NEXT_FULL => Asked::Full,
            raw::NEXT_SHUT => Asked::Shut,
            next => unreachable!("the core answered next {next}"),
        }
    }

    fn refusal(&self) -> Refusal {
        match self.reply {
            raw::REFUSAL_HISTORY_FULL => Refusal::HistoryFull,
            raw::REFUSAL_BUSY => Refusal::Busy,
            raw::REFUSAL_TOO_MANY_IN_FLIGHT => Refusal::TooManyInFlight,
            raw::REFUSAL_TOO_MANY_JOINERS => Refusal::TooManyJoiners,
            reply => unreachable!("the core answered refusal {reply}"),
        }
    }
}

impl Desk {
    /// Opens a desk over stripe `number` (from 0) with these entries, the first one the most recently used.
    ///
    /// # Errors
    /// [`Code::BadArgument`]: the shape is out of its limits, no stripe has this number, or the entries don't fit: one has a key or a
    /// value out of the limits, a key is there twice or of another stripe, or there are more than the capacity. [`Code::NoMemory`].
    /// [`Code::WrongVersion`]: the library that was linked is of another version.
    pub fn open(shape: &Shape, number: usize, entries: &[(&[u8], &[u8])]) -> Result<Desk, Code> {
        // Nothing of a library of another version is called, not even to close what it didn't open.
        check_version()?;
        let mut desk = Desk {
            room: Box::new(Room {
                handle: raw::Handle::CLOSED,
                out: raw::Out::EMPTY,
            }),
        };
        desk.reopen(shape, number, entries)?;
        Ok(desk)
    }

    /// Opens a desk that was closed.
    ///
    /// # Errors
    /// As [`open`](Desk::open); and [`Code::WrongHandle`]: it is open, and stays as it is.
    pub fn reopen(
        &mut self,
        shape: &Shape,
        number: usize,
        entries: &[(&[u8], &[u8])],
    ) -> Result<(), Code> {
        let shape = raw_shape(shape);
        let entries = raw_entries(entries);
        let handle = &mut self.room.handle;
        // SAFETY: the handle is one that was closed or never opened, or the library refuses it; the entries live through the call.
        checked(unsafe { raw::jc_open(handle, &shape, number, entries.as_ptr(), entries.len()) })
    }

    /// Closes the desk and frees it.
    ///
    /// # Errors
    /// [`Code::InUse`]: a ticket or a join is out, and it stays open. [`Code::WrongHandle`]: it isn't open.
    pub fn close(&mut self) -> Result<(), Code> {
        // SAFETY: the handle is the library's.
        checked(unsafe { raw::jc_close(&mut self.room.handle) })
    }

    /// The first phase of the session's next call. A session is whoever has at most one call out at this desk.
    ///
    /// # Errors
    /// [`Code::BadArgument`]: a key or a value is out of its limits. [`Code::Misuse`]: the key is of another stripe, or the session has
    /// another call out. [`Code::NoMemory`], [`Code::WrongHandle`]. Nothing was done.
    #[inline]
    pub fn begin(&mut self, session: u32, op: Op<'_>, key: &[u8]) -> Result<Asked<'_>, Code> {
        let (op, value, other) = op.parts();
        let Room { handle, out } = &mut *self.room;
        // SAFETY: `&mut self` is the one call at a time; the slices live through the call, and overlap nothing that it writes.
        let code = unsafe {
            raw::jc_begin(
                handle,
                session,
                op,
                key.as_ptr(),
                key.len(),
                value.as_ptr(),
                value.len(),
                other.as_ptr(),
                other.len(),
                out,
            )
        };
        checked(code)?;
        Ok(out.asked(session))
    }

    /// A `get` that finds its entry. None: nothing was done, and [`begin`](Desk::begin) says why.
    ///
    /// # Errors
    /// [`Code::BadArgument`]: the key is out of its limits. [`Code::WrongHandle`].
    #[inline]
    pub fn hit(&mut self, session: u32, key: &[u8]) -> Result<Option<&[u8]>, Code> {
        let Room { handle, out } = &mut *self.room;
        let value = &mut out.value;
        // SAFETY: as in `begin`.
        match unsafe { raw::jc_hit(handle, session, key.as_ptr(), key.len(), value) } {
            raw::CODE_NONE => Ok(None),
            code => checked(code).map(|()| Some(out.value.get())),
        }
    }

    /// The last phase of a call whose loader was asked.
    ///
    /// # Errors
    /// [`Code::Misuse`]: the ticket isn't out here, or asks for another phase. [`Code::BadArgument`]: a value is out of its limits.
    /// [`Code::NoMemory`], [`Code::WrongHandle`]. Nothing was done, and the ticket is as it was.
    pub fn commit_load(&mut self, ticket: Ticket, loaded: Loaded<'_>) -> Result<Done<'_>, Code> {
        let (answer, code, value) = loaded.parts();
        let Room { handle, out } = &mut *self.room;
        let (bytes, len) = (value.as_ptr(), value.len());
        // SAFETY: as in `begin`.
        checked(unsafe { raw::jc_commit_load(handle, ticket.0, answer, code, bytes, len, out) })?;
        Ok(out.done(out.shared))
    }

    /// The last phase of a call whose writer was asked.
    ///
    /// # Errors
    /// [`Code::Misuse`]: the ticket isn't out here, or asks for another phase. [`Code::NoMemory`], [`Code::WrongHandle`]. Nothing was
    /// done, and the ticket is as it was.
    pub fn commit_write(&mut self, ticket: Ticket, written: Written) -> Result<Done<'_>, Code> {
        let (answer, code) = written_parts(Some(written));
        let Room { handle, out } = &mut *self.room;
        // SAFETY: as in `begin`.
        checked(unsafe { raw::jc_commit_write(handle, ticket.0, answer, code, out) })?;
        Ok(out.done(out.shared))
    }

    /// The last phase of a call whose processor ran.
    ///
    /// # Errors
    /// As [`commit_load`](Desk::commit_load); and [`Code::Misuse`]: the loader answered though it may not be asked, or the writer was
    /// (not) asked though it wasn't (was) due.
    pub fn commit_process(
        &mut self,
        ticket: Ticket,
        processed: &Processed<'_>,
    ) -> Result<Done<'_>, Code> {
        let processed = raw_processed(processed);
        let Room { handle, out } = &mut *self.room;
        // SAFETY: as in `begin`.
        checked(unsafe { raw::jc_commit_process(handle, ticket.0, &processed, out) })?;
        Ok(out.done(out.shared))
    }

    /// Gives a ticket back whose loader, writer or processor was not asked: its joiners are told to begin anew. If its key was
    /// invalidated meanwhile, its entry is evicted.
    ///
    /// # Errors
    /// [`Code::Misuse`]: the ticket isn't out here. [`Code::WrongHandle`].
    pub fn withdraw(&mut self, ticket: Ticket) -> Result<Moves<'_>, Code> {
        let Room { handle, out } = &mut *self.room;
        // SAFETY: as in `begin`.
        checked(unsafe { raw::jc_withdraw(handle, ticket.0, out) })?;
        Ok(out.moves())
    }

    /// Picks up the answer of a load that was joined.
    ///
    /// # Errors
    /// [`Code::Misuse`]: no such join is out at this key. [`Code::BadArgument`]: the key is out of its limits. [`Code::WrongHandle`].
    pub fn pick_up(&mut self, join: Join, key: &[u8]) -> Result<PickedUp<'_>, Code> {
        let Join {
            session,
            call,
            load,
        } = join;
        let Room { handle, out } = &mut *self.room;
        let (bytes, len) = (key.as_ptr(), key.len());
        // SAFETY: as in `begin`.
        checked(unsafe { raw::jc_pick_up(handle, session, call, bytes, len, load, out) })?;
        Ok(match out.next {
            raw::NEXT_DONE => PickedUp::Done(out.reply(), out.place),
            raw::NEXT_AGAIN => PickedUp::Again,
            raw::NEXT_NOT_YET => PickedUp::NotYet,
            next => unreachable!("the core answered next {next}"),
        })
    }

    /// The key's entry. No call is made, and the order of use stays.
    ///
    /// # Errors
    /// [`Code::BadArgument`]: the key is out of its limits. [`Code::WrongHandle`].
    pub fn peek(&mut self, key: &[u8]) -> Result<Option<&[u8]>, Code> {
        let Room { handle, out } = &mut *self.room;
        // SAFETY: as in `begin`.
        match unsafe { raw::jc_peek(handle, key.as_ptr(), key.len(), &mut out.value) } {
            raw::CODE_NONE => Ok(None),
            code => checked(code).map(|()| Some(out.value.get())),
        }
    }

    /// What all events since the opening count; in constant time.
    ///
    /// # Errors
    /// [`Code::WrongHandle`].
    pub fn statistics(&mut self) -> Result<Statistics, Code> {
        let mut counts = raw::Statistics::default();
        // SAFETY: as in `begin`.
        checked(unsafe { raw::jc_statistics_of(&mut self.room.handle, &mut counts) })?;
        Ok(Statistics {
            hits: counts.hits,
            misses: counts.misses,
            puts: counts.puts,
            removals: counts.removals,
            evictions: counts.evictions,
        })
    }

    /// What is cached, the most recently used first. Of a desk that is shut that is also what is to be forgotten: sweep before you
    /// open another desk with these entries.
    ///
    /// # Errors
    /// [`Code::WrongHandle`].
    pub fn entries(&mut self) -> Result<Vec<(Vec<u8>, Vec<u8>)>, Code> {
        let len = self.entries_into(&mut [])?;
        let mut room = vec![raw::Entry::EMPTY; len];
        self.entries_into(&mut room)?;
        Ok(room
            .iter()
            .map(|entry| (entry.key.get().to_vec(), entry.value.get().to_vec()))
            .collect())
    }

    fn entries_into(&mut self, room: &mut [raw::Entry]) -> Result<usize, Code> {
        let mut count = 0;
        let handle = &mut self.room.handle;
        // SAFETY: as in `begin`.
        checked(unsafe { raw::jc_entries(handle, room.as_mut_ptr(), room.len(), &mut count) })?;
        Ok(count)
    }

    /// How many events the present generation has; 0 if the desk isn't open.
    pub fn events_len(&mut self) -> usize {
        // SAFETY: as in `begin`.
        unsafe { raw::jc_events_len(&mut self.room.handle) }
    }

    /// The event at a place of the present generation, from 0; or none, if it has no such place.
    ///
    /// # Errors
    /// [`Code::WrongHandle`].
    pub fn event(&mut self, place: usize) -> Result<Option<Event>, Code> {
        let mut event = Event::empty();
        // SAFETY: as in `begin`.
        match unsafe { raw::jc_event(&mut self.room.handle, place, event.as_raw_mut()) } {
            raw::CODE_NONE => Ok(None),
            code => checked(code).map(|()| Some(event)),
        }
    }

    /// Ends the present generation: its events are gone.
    ///
    /// # Errors
    /// [`Code::InUse`]: it has no event, or an answer is parked. [`Code::WrongHandle`].
    pub fn end_generation(&mut self) -> Result<(), Code> {
        // SAFETY: as in `begin`.
        checked(unsafe { raw::jc_end_generation(&mut self.room.handle) })
    }
}

fn raw_shape(shape: &Shape) -> raw::Shape {
    raw::Shape {
        stripes: shape.stripes,
        capacity: shape.capacity,
        history: shape.history,
        read_through: shape.read_through,
        write_through: shape.write_through,
        keeps_events: shape.keeps_events,
        out_size: raw::OUT_SIZE,
    }
}

fn raw_entries(entries: &[(&[u8], &[u8])]) -> Vec<raw::Entry> {
    let entries = entries.iter().map(|(key, value)| raw::Entry {
        key: raw::Key::of(key),
        value: raw::Value::of(value),
    });
    entries.collect()
}

fn written_parts(written: Option<Written>) -> (u32, u32) {
    match written {
        None => (raw::ANSWER_NOT_ASKED, 0),
        Some(Written::Done) => (raw::ANSWER_WRITTEN, 0),
        Some(Written::Failed(code)) => (raw::ANSWER_FAILED, code),
    }
}

fn raw_processed(processed: &Processed<'_>) -> raw::Processed {
    let (load, load_code, loaded) = match processed.load {
        Some(loaded) => loaded.parts(),
        None => (raw::ANSWER_NOT_ASKED, 0, &b""[..]),
    };
    let (effect, code, set) = match processed.effect {
        Effect::Keep => (raw::EFFECT_KEEP, 0, &b""[..]),
        Effect::Set(value) => (raw::EFFECT_SET, 0, value),
        Effect::Remove => (raw::EFFECT_REMOVE, 0, &b""[..]),
        Effect::Failed(code) => (raw::EFFECT_FAILED, code, &b""[..]),
    };
    let (write, write_code) = written_parts(processed.write);
    raw::Processed {
        load,
        load_code,
        effect,
        code,
        write,
        write_code,
        has_outcome: processed.outcome.is_some(),
        loaded: raw::Value::of(loaded),
        set: raw::Value::of(set),
        outcome: raw::Value::of(processed.outcome.unwrap_or(b"")),
    }
}

impl Drop for Desk {
    fn drop(&mut self) {
        let _ = self.close();
    }
}

impl fmt::Debug for Desk {
    fn fmt(&self, f: &mut fmt::Formatter<'_>) -> fmt::Result {
        f.debug_struct("Desk")
            .field("is_open", &self.room.handle.is_open)
            .finish()
    }
}
