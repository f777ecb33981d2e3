//! The structs of the header. `tests/header.rs` compares names, types and places of their fields with it.
use crate::{KEY_MAX, VALUE_MAX};
use core::ffi::c_void;

/// A desk: one stripe. It begins as [`Handle::CLOSED`]; only the library reads or writes it, and it isn't copied or moved while it is
/// open.
#[repr(C)]
#[derive(Debug)]
pub struct Handle {
    /// The library's.
    pub at: *mut c_void,
    /// The library's.
    pub is_open: bool,
}

/// The shape of a cache.
#[repr(C)]
#[derive(Clone, Copy, Debug)]
pub struct Shape {
    /// How many stripes the host's cache has: 1 to 64. A key is of stripe (sum of its bytes) mod stripes.
    pub stripes: usize,
    /// Entries of a stripe: 1 to 4,096.
    pub capacity: usize,
    /// Events of a generation: 16 to 65,536. Their room, 884 bytes each, is allocated by `jc_open`.
    pub history: usize,
    /// Whether a `get` of a missing key asks the loader.
    pub read_through: bool,
    /// Whether a mutation is written first.
    pub write_through: bool,
    /// Whether a full generation waits for `jc_end_generation`.
    pub keeps_events: bool,
    /// [`OUT_SIZE`](crate::OUT_SIZE): `jc_open` refuses a host that was compiled with another one.
    pub out_size: u32,
}

/// A value: only its first `len` bytes count, and only they are written.
#[repr(C)]
#[derive(Clone, Copy, Debug)]
pub struct Value {
    /// How many bytes it has.
    pub len: u32,
    /// Its bytes, and what is behind them.
    pub bytes: [u8; VALUE_MAX],
}

/// A key: only its first `len` bytes count, and only they are written.
#[repr(C)]
#[derive(Clone, Copy, Debug)]
pub struct Key {
    /// How many bytes it has.
    pub len: u32,
    /// Its bytes, and what is behind them.
    pub bytes: [u8; KEY_MAX],
}

/// A key with its value.
#[repr(C)]
#[derive(Clone, Copy, Debug)]
pub struct Entry {
    /// The key.
    pub key: Key,
    /// Its value.
    pub value: Value,
}

/// What a phase answers. Only the fields that `next` and `reply` speak of are written.
#[repr(C)]
#[derive(Clone, Copy, Debug)]
pub struct Out {
    /// What the host does next: [`NEXT_DONE`](crate::NEXT_DONE) to [`NEXT_FULL`](crate::NEXT_FULL).
    pub next: u32,
    /// What the call is answered, or why it was refused.
    pub reply: u32,
    /// Of a failure; with [`ASK_PROCESS`](crate::ASK_PROCESS): 1 if the loader may be asked.
    pub code: u32,
    /// The place of the call's step in the present generation.
    pub place: u32,
    /// Of `jc_commit_load`: how many joiners have this answer parked.
    pub shared: u32,
    /// Which values came and went.
    pub moves: u32,
    /// The ticket, or the load that was joined.
    pub number: u64,
    /// Of `jc_begin`: the call's number.
    pub call: u64,
    /// The value that is answered, or to be written.
    pub value: Value,
    /// With [`MOVE_REMOVED`](crate::MOVE_REMOVED): the value that the key's entry had.
    pub left: Value,
    /// With [`MOVE_EVICTED`](crate::MOVE_EVICTED): the key that was evicted.
    pub victim: Key,
    /// With [`MOVE_EVICTED`](crate::MOVE_EVICTED): the value that it had.
    pub evicted: Value,
}

/// What a processor did, and what its loader and its writer answered.
#[repr(C)]
#[derive(Clone, Copy, Debug)]
pub struct Processed {
    /// What the loader answered, if it was asked.
    pub load: u32,
    /// Why it failed.
    pub load_code: u32,
    /// The net effect: [`EFFECT_KEEP`](crate::EFFECT_KEEP) to [`EFFECT_FAILED`](crate::EFFECT_FAILED).
    pub effect: u32,
    /// Why the processor failed.
    pub code: u32,
    /// What the writer answered. It is asked if write-through is on, there is a change, and no load failed.
    pub write: u32,
    /// Why it failed.
    pub write_code: u32,
    /// Whether `outcome` is what the processor returned.
    pub has_outcome: bool,
    /// What the loader found.
    pub loaded: Value,
    /// What the processor set.
    pub set: Value,
    /// What the processor returned.
    pub outcome: Value,
}

/// An event of a generation. Only the fields that count are written; `jc_legal` wants all others to be zeros.
#[repr(C)]
#[derive(Clone, Copy, Debug)]
pub struct FlatEvent {
    /// [`EVENT_STEP`](crate::EVENT_STEP) or [`EVENT_EVICTION`](crate::EVENT_EVICTION).
    pub kind: u32,
    /// The call's session.
    pub session: u32,
    /// The call's number.
    pub call: u64,
    /// The call's operation.
    pub op: u32,
    /// Whether it joined a load.
    pub is_shared: bool,
    /// The place of the step that loaded.
    pub shared_with: u32,
    /// What the call was answered.
    pub reply: u32,
    /// Of a failure.
    pub reply_code: u32,
    /// Why an entry was evicted.
    pub cause: u32,
    /// The key of the step or of the eviction.
    pub key: Key,
    /// The operation's value.
    pub value: Value,
    /// The operation's other value.
    pub other: Value,
    /// The value that was answered.
    pub replied: Value,
    /// What was answered outside.
    pub outside: Processed,
}

/// What all events since the opening count.
#[repr(C)]
#[derive(Clone, Copy, Debug, Default)]
pub struct Statistics {
    /// Calls that found their entry.
    pub hits: u64,
    /// Calls that didn't.
    pub misses: u64,
    /// Values that were put.
    pub puts: u64,
    /// Entries that were removed.
    pub removals: u64,
    /// Entries that were evicted.
    pub evictions: u64,
}

impl Handle {
    /// A handle that was never opened.
    pub const CLOSED: Handle = Handle {
        at: core::ptr::null_mut(),
        is_open: false,
    };
}

macro_rules! bytes {
    ($kind:ident, $max:expr, $what:literal) => {
        impl $kind {
            #[doc = concat!("A ", $what, " without bytes.")]
            pub const EMPTY: $kind = $kind {
                len: 0,
                bytes: [0; $max],
            };

            /// Its bytes.
            ///
            /// # Panics
            ///
            /// If `len` is more than it can have, which the library never writes.
            #[inline]
            pub fn get(&self) -> &[u8] {
                &self.bytes[..self.len as usize]
            }

            #[doc = concat!("A ", $what, " of these bytes. Of too many it is one that the library refuses.")]
            pub fn of(bytes: &[u8]) -> $kind {
                let mut made = $kind::EMPTY;
                made.len = u32::try_from(bytes.len()).unwrap_or(u32::MAX);
                if let Some(room) = made.bytes.get_mut(..bytes.len()) {
                    room.copy_from_slice(bytes);
                }
                made
            }
        }
    };
}

bytes!(Value, VALUE_MAX, "value");
bytes!(Key, KEY_MAX, "key");

impl Entry {
    /// Room for an entry.
    pub const EMPTY: Entry = Entry {
        key: Key::EMPTY,
        value: Value::EMPTY,
    };
}

impl Out {
    /// Room for an answer.
    pub const EMPTY: Out = Out {
        next: 0,
        reply: 0,
        code: 0,
        place: 0,
        shared: 0,
        moves: 0,
        number: 0,
        call: 0,
        value: Value::EMPTY,
        left: Value::EMPTY,
        victim: Key::EMPTY,
        evicted: Value::EMPTY,
    };
}

impl Processed {
    /// A processor that did nothing.
    pub const EMPTY: Processed = Processed {
        load: 0,
        load_code: 0,
        effect: 0,
        code: 0,
        write: 0,
        write_code: 0,
        has_outcome: false,
        loaded: Value::EMPTY,
        set: Value::EMPTY,
        outcome: Value::EMPTY,
    };
}

impl FlatEvent {
    /// Room for an event: all zeros.
    pub const EMPTY: FlatEvent = FlatEvent {
        kind: 0,
        session: 0,
        call: 0,
        op: 0,
        is_shared: false,
        shared_with: 0,
        reply: 0,
        reply_code: 0,
        cause: 0,
        key: Key::EMPTY,
        value: Value::EMPTY,
        other: Value::EMPTY,
        replied: Value::EMPTY,
        outside: Processed::EMPTY,
    };
}
