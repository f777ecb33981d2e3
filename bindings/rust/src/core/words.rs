//! What is said between a host and a desk.
use super::raw;
use std::fmt;

/// Why nothing was done.
#[derive(Clone, Copy, Debug, PartialEq, Eq)]
#[non_exhaustive]
pub enum Code {
    /// The desk isn't open; or it is to be opened, and is open already.
    WrongHandle,
    /// An allocation failed.
    NoMemory,
    /// A key of 0 or over 32 bytes, a value of over 256, or a shape out of its limits.
    BadArgument,
    /// No such ticket or join is out, the answer doesn't fit, the key is of another stripe, or the session has another call out.
    Misuse,
    /// A ticket or a join is out, or an answer is parked.
    InUse,
    /// The library that was linked is of another version than this crate is written for: see [`VERSION`](super::VERSION).
    WrongVersion,
}

impl fmt::Display for Code {
    fn fmt(&self, f: &mut fmt::Formatter<'_>) -> fmt::Result {
        f.write_str(match self {
            Code::WrongHandle => "the desk is not open, or is open already",
            Code::NoMemory => "out of memory",
            Code::BadArgument => "a key, a value or a shape is out of its limits",
            Code::Misuse => "no such ticket or join is out, or the answer does not fit it",
            Code::InUse => "a ticket or a join is out, or an answer is parked",
            Code::WrongVersion => "the core that was linked is of another version",
        })
    }
}

impl std::error::Error for Code {}

/// The shape of a cache.
#[derive(Clone, Copy, Debug)]
pub struct Shape {
    /// How many stripes the host's cache has, 1 to 64. A key is of the stripe (sum of its bytes) mod stripes.
    pub stripes: usize,
    /// Entries of a stripe, 1 to 4,096.
    pub capacity: usize,
    /// Events of a generation, 16 to 65,536. Their room, 884 bytes each, is allocated at once.
    pub history: usize,
    /// Whether a `get` of a missing key asks the loader.
    pub read_through: bool,
    /// Whether a mutation is written first.
    pub write_through: bool,
    /// Whether a full generation waits until the host ends it ([`Asked::Full`]); otherwise it ends by itself.
    pub keeps_events: bool,
}

/// An operation at one key, as JCache has it.
#[derive(Clone, Copy, Debug)]
pub enum Op<'a> {
    /// The value; with read-through the loader is asked if there is none.
    Get,
    /// Whether the key has an entry.
    ContainsKey,
    /// This value.
    Put(&'a [u8]),
    /// This value; the old one is answered.
    GetAndPut(&'a [u8]),
    /// This value, if there is none.
    PutIfAbsent(&'a [u8]),
    /// No entry any more.
    Remove,
    /// No entry any more, if it has this value.
    RemoveIf(&'a [u8]),
    /// No entry any more; the old value is answered.
    GetAndRemove,
    /// This value, if there is one.
    Replace(&'a [u8]),
    /// Another value, if there is this one.
    ReplaceIf {
        /// The value that there is to be.
        old: &'a [u8],
        /// The value that comes.
        new: &'a [u8],
    },
    /// This value, if there is one; the old one is answered.
    GetAndReplace(&'a [u8]),
    /// One key of `clear`: no writer is asked.
    Clear,
    /// One key of `loadAll`, if it has no entry.
    Load,
    /// One key of `loadAll`, in any case.
    Reload,
    /// An entry processor.
    Invoke,
}

impl<'a> Op<'a> {
    pub(super) fn of(op: u32, value: &'a raw::Value, other: &'a raw::Value) -> Op<'a> {
        match op {
            raw::OP_GET => Op::Get,
            raw::OP_CONTAINS_KEY => Op::ContainsKey,
            raw::OP_PUT => Op::Put(value.get()),
            raw::OP_GET_AND_PUT => Op::GetAndPut(value.get()),
            raw::OP_PUT_IF_ABSENT => Op::PutIfAbsent(value.get()),
            raw::OP_REMOVE => Op::Remove,
            raw::OP_REMOVE_IF => Op::RemoveIf(value.get()),
            raw::OP_GET_AND_REMOVE => Op::GetAndRemove,
            raw::OP_REPLACE => Op::Replace(value.get()),
            raw::OP_REPLACE_IF => Op::ReplaceIf {
                old: value.get(),
                new: other.get(),
            },
            raw::OP_GET_AND_REPLACE => Op::GetAndReplace(value.get()),
            raw::OP_CLEAR_KEY => Op::Clear,
            raw::OP_LOAD => Op::Load,
            raw::OP_RELOAD => Op::Reload,
            raw::OP_INVOKE => Op::Invoke,
            op => unreachable!("the core answered operation {op}"),
        }
    }

    pub(super) fn parts(self) -> (u32, &'a [u8], &'a [u8]) {
        match self {
            Op::Get => (raw::OP_GET, b"", b""),
            Op::ContainsKey => (raw::OP_CONTAINS_KEY, b"", b""),
            Op::Put(value) => (raw::OP_PUT, value, b""),
            Op::GetAndPut(value) => (raw::OP_GET_AND_PUT, value, b""),
            Op::PutIfAbsent(value) => (raw::OP_PUT_IF_ABSENT, value, b""),
            Op::Remove => (raw::OP_REMOVE, b"", b""),
            Op::RemoveIf(old) => (raw::OP_REMOVE_IF, old, b""),
            Op::GetAndRemove => (raw::OP_GET_AND_REMOVE, b"", b""),
            Op::Replace(value) => (raw::OP_REPLACE, value, b""),
            Op::ReplaceIf { old, new } => (raw::OP_REPLACE_IF, old, new),
            Op::GetAndReplace(value) => (raw::OP_GET_AND_REPLACE, value, b""),
            Op::Clear => (raw::OP_CLEAR_KEY, b"", b""),
            Op::Load => (raw::OP_LOAD, b"", b""),
            Op::Reload => (raw::OP_RELOAD, b"", b""),
            Op::Invoke => (raw::OP_INVOKE, b"", b""),
        }
    }
}

/// A reservation of a key, by its number: it is to be committed or withdrawn, once.
#[derive(Clone, Copy, Debug, PartialEq, Eq)]
pub struct Ticket(pub u64);

/// A call that has joined another call's load: it is to be picked up.
#[derive(Clone, Copy, Debug, PartialEq, Eq)]
pub struct Join {
    /// The session that joined.
    pub session: u32,
    /// The number of its call.
    pub call: u64,
    /// The load that was joined.
    pub load: u64,
}

/// Why a first phase was refused. Nothing was done.
#[derive(Clone, Copy, Debug, PartialEq, Eq)]
pub enum Refusal {
    /// A number is at its end, after 2^64 calls.
    HistoryFull,
    /// The key is reserved, or the history lacks room until an answer is picked up: retry after the next commit, withdrawal or pick-up.
    Busy,
    /// 64 keys are reserved.
    TooManyInFlight,
    /// 64 calls have joined a load.
    TooManyJoiners,
}

/// What a call is answered.
#[derive(Clone, Copy, Debug, PartialEq, Eq)]
pub enum Reply<'d> {
    /// It was done.
    Unit,
    /// Yes or no.
    Flag(bool),
    /// A value, or none.
    Value(Option<&'d [u8]>),
    /// The loader failed, with this code.
    LoaderFailed(u32),
    /// The writer failed, with this code.
    WriterFailed(u32),
    /// The processor failed, with this code.
    ProcessorFailed(u32),
}

impl<'d> Reply<'d> {
    #[inline]
    pub(super) fn of(reply: u32, code: u32, value: &'d raw::Value) -> Reply<'d> {
        match reply {
            raw::REPLY_UNIT => Reply::Unit,
            raw::REPLY_NO => Reply::Flag(false),
            raw::REPLY_YES => Reply::Flag(true),
            raw::REPLY_NULL => Reply::Value(None),
            raw::REPLY_VALUE => Reply::Value(Some(value.get())),
            raw::REPLY_LOADER_FAILED => Reply::LoaderFailed(code),
            raw::REPLY_WRITER_FAILED => Reply::WriterFailed(code),
            raw::REPLY_PROCESSOR_FAILED => Reply::ProcessorFailed(code),
            reply => unreachable!("the core answered reply {reply}"),
        }
    }
}

/// Why an entry was evicted: of a step, the one that it made or left, at once.
#[derive(Clone, Copy, Debug, PartialEq, Eq)]
pub enum Cause {
    /// The stripe was full; of a step's own new entry: all others are reserved.
    Full,
    /// An allocation failed.
    Memory,
    /// The key was invalidated.
    Invalidated,
}

/// Which values came and went with a step, or with what is no step. All other entries are as they were.
#[derive(Clone, Copy, Debug, PartialEq, Eq)]
pub struct Moves<'d> {
    /// The key's entry has a value that it hadn't before: the one that this call brought.
    pub is_kept: bool,
    /// The value that the key's entry had, and hasn't now.
    pub left: Option<&'d [u8]>,
    /// The key that was evicted for this step, or by this sweep, and the value that it had.
    pub victim: Option<(&'d [u8], &'d [u8])>,
    /// Why the key's own entry was evicted at once, if it was.
    pub own: Option<Cause>,
}

/// A call that is over.
#[derive(Clone, Copy, Debug)]
pub struct Done<'d> {
    /// What it is answered.
    pub reply: Reply<'d>,
    /// The place of its step in the present generation.
    pub place: u32,
    /// How many joiners have this load's answer parked.
    pub shared: u32,
    /// Which values came and went.
    pub moves: Moves<'d>,
}

/// What a first phase asks its host to do next.
#[derive(Clone, Copy, Debug)]
pub enum Asked<'d> {
    /// Nothing: the call is over.
    Done(Done<'d>),
    /// Ask the loader, then [`Desk::commit_load`](super::Desk::commit_load).
    Load(Ticket),
    /// Have the writer write this value, then [`Desk::commit_write`](super::Desk::commit_write).
    Write(Ticket, &'d [u8]),
    /// Have the writer delete the key, then [`Desk::commit_write`](super::Desk::commit_write).
    Delete(Ticket),
    /// Run the processor on the entry, then [`Desk::commit_process`](super::Desk::commit_process).
    Process {
        /// The reservation.
        ticket: Ticket,
        /// The entry that the processor sees.
        entry: Option<&'d [u8]>,
        /// Whether its first look at a missing value asks the loader.
        may_load: bool,
    },
    /// Wait until the load is over, then [`Desk::pick_up`](super::Desk::pick_up).
    Joined(Join),
    /// Nothing was done.
    Refused(Refusal),
    /// With `keeps_events`: nothing was done. Read the events, call [`Desk::end_generation`](super::Desk::end_generation), begin anew.
    Full,
    /// Nothing was done. Call [`Desk::sweep`](super::Desk::sweep) as long as it evicts an entry, and begin anew.
    Shut,
}

/// What was done by [`Desk::invalidate`](super::Desk::invalidate).
#[derive(Clone, Copy, Debug)]
pub struct Invalidated<'d> {
    /// The value of the key's entry, if that was evicted.
    pub moves: Moves<'d>,
    /// Whether no call begins until [`Desk::sweep`](super::Desk::sweep) has evicted all entries that aren't reserved.
    pub is_shut: bool,
}

/// What a sweep has found.
#[derive(Clone, Copy, Debug)]
pub enum Swept<'d> {
    /// Nothing is left: calls may begin.
    Open,
    /// An entry, which it has evicted (the victim of these moves): sweep again.
    Evicted(Moves<'d>),
    /// An entry for which there is no place until the next commit, withdrawal or pick-up.
    NotYet,
    /// With `keeps_events`: an entry. Read the events, call [`Desk::end_generation`](super::Desk::end_generation), sweep again.
    Full,
}

/// What a joiner is told.
#[derive(Clone, Copy, Debug)]
pub enum PickedUp<'d> {
    /// The load's answer, and the place of the joiner's own step. The call is over.
    Done(Reply<'d>, u32),
    /// The load was withdrawn. The call is over; begin anew.
    Again,
    /// The load isn't over, and the join is still out.
    NotYet,
}

/// What a loader answered.
#[derive(Clone, Copy, Debug)]
pub enum Loaded<'a> {
    /// This value.
    Found(&'a [u8]),
    /// The key has no value.
    Nothing,
    /// It failed, with this code.
    Failed(u32),
}

impl<'a> Loaded<'a> {
    pub(super) fn parts(self) -> (u32, u32, &'a [u8]) {
        match self {
            Loaded::Found(value) => (raw::ANSWER_FOUND, 0, value),
            Loaded::Nothing => (raw::ANSWER_NOTHING, 0, b""),
            Loaded::Failed(code) => (raw::ANSWER_FAILED, code, b""),
        }
    }
}

/// What a writer answered.
#[derive(Clone, Copy, Debug)]
pub enum Written {
    /// It wrote or deleted.
    Done,
    /// It failed, with this code.
    Failed(u32),
}

/// The net effect of a processor.
#[derive(Clone, Copy, Debug)]
pub enum Effect<'a> {
    /// It changed nothing.
    Keep,
    /// It set this value.
    Set(&'a [u8]),
    /// It removed the entry.
    Remove,
    /// It failed, with this code.
    Failed(u32),
}

/// What a processor did.
#[derive(Clone, Copy, Debug)]
pub struct Processed<'a> {
    /// What the loader answered, if it was asked.
    pub load: Option<Loaded<'a>>,
    /// The net effect.
    pub effect: Effect<'a>,
    /// What the writer answered. It is asked if write-through is on, there is a change, and no load failed.
    pub write: Option<Written>,
    /// What the processor returned.
    pub outcome: Option<&'a [u8]>,
}

/// What all events since the opening count, as JCache's statistics do.
#[derive(Clone, Copy, Debug, Default, PartialEq, Eq)]
pub struct Statistics {
    /// Calls that found their entry.
    pub hits: u64,
    /// Calls that didn't.
    pub misses: u64,
    /// Values that were put.
    pub puts: u64,
    /// Entries that were removed. One that expires isn't counted.
    pub removals: u64,
    /// Entries that were evicted, since their stripe was full or an allocation failed.
    pub evictions: u64,
}

impl std::ops::Add for Statistics {
    type Output = Statistics;

    fn add(self, other: Statistics) -> Statistics {
        Statistics {
            hits: self.hits + other.hits,
            misses: self.misses + other.misses,
            puts: self.puts + other.puts,
            removals: self.removals + other.removals,
            evictions: self.evictions + other.evictions,
        }
    }
}
