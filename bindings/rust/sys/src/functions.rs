//! The functions of the header. `tests/header.rs` compares their parameters with it.
use crate::{Entry, FlatEvent, Handle, Out, Processed, Shape, Statistics, Value};

// What each requires is in the header, under "the host owes": pointers to live memory that nothing else uses meanwhile, true bools, one
// call at a time of a desk. A pointer with length 0 isn't null.
unsafe extern "C" {
    /// The version of the library: compare its thousands with those of [`VERSION`](crate::VERSION) before any other call.
    pub fn jc_version() -> u32;

    /// Opens a desk over stripe `number` (from 0) of a cache of this shape, with these entries, the most recently used first.
    pub fn jc_open(
        h: *mut Handle,
        shape: *const Shape,
        number: usize,
        entries: *const Entry,
        count: usize,
    ) -> u32;

    /// Frees the desk. [`CODE_IN_USE`](crate::CODE_IN_USE), and it stays open, while a ticket or a join is out.
    pub fn jc_close(h: *mut Handle) -> u32;

    /// The first phase of the session's next call.
    pub fn jc_begin(
        h: *mut Handle,
        session: u32,
        op: u32,
        key: *const u8,
        key_len: usize,
        value: *const u8,
        value_len: usize,
        other: *const u8,
        other_len: usize,
        out: *mut Out,
    ) -> u32;

    /// A `get` that finds its entry, and nothing else: after [`CODE_NONE`](crate::CODE_NONE) `jc_begin` says why.
    pub fn jc_hit(
        h: *mut Handle,
        session: u32,
        key: *const u8,
        key_len: usize,
        value: *mut Value,
    ) -> u32;

    /// The last phase of a call whose loader was asked.
    pub fn jc_commit_load(
        h: *mut Handle,
        ticket: u64,
        answer: u32,
        code: u32,
        value: *const u8,
        value_len: usize,
        out: *mut Out,
    ) -> u32;

    /// The last phase of a call whose writer was asked.
    pub fn jc_commit_write(
        h: *mut Handle,
        ticket: u64,
        answer: u32,
        code: u32,
        out: *mut Out,
    ) -> u32;

    /// The last phase of a call whose processor ran.
    pub fn jc_commit_process(
        h: *mut Handle,
        ticket: u64,
        processed: *const Processed,
        out: *mut Out,
    ) -> u32;

    /// Gives a ticket back whose loader, writer or processor was not asked.
    pub fn jc_withdraw(h: *mut Handle, ticket: u64, out: *mut Out) -> u32;

    /// Picks up the answer of a load that was joined. Until it says [`NEXT_DONE`](crate::NEXT_DONE) or [`NEXT_AGAIN`](crate::NEXT_AGAIN), the join is out.
    pub fn jc_pick_up(
        h: *mut Handle,
        session: u32,
        call: u64,
        key: *const u8,
        key_len: usize,
        load: u64,
        out: *mut Out,
    ) -> u32;

    /// Forgets a key that somebody else has written in the store. After [`NEXT_SHUT`](crate::NEXT_SHUT) it is `jc_sweep`'s turn.
    pub fn jc_invalidate(h: *mut Handle, key: *const u8, key_len: usize, out: *mut Out) -> u32;

    /// Forgets all keys. Then it is `jc_sweep`'s turn.
    pub fn jc_invalidate_all(h: *mut Handle) -> u32;

    /// Evicts an entry of a desk that is shut. `Out::next` says how it goes on.
    pub fn jc_sweep(h: *mut Handle, out: *mut Out) -> u32;

    /// The key's entry. No call is made.
    pub fn jc_peek(h: *mut Handle, key: *const u8, key_len: usize, value: *mut Value) -> u32;

    /// What all events since `jc_open` count.
    pub fn jc_statistics_of(h: *mut Handle, out: *mut Statistics) -> u32;

    /// Writes what is cached, as far as there is room, and how many entries there are.
    pub fn jc_entries(h: *mut Handle, out: *mut Entry, room: usize, count: *mut usize) -> u32;

    /// How many events the present generation has.
    pub fn jc_events_len(h: *mut Handle) -> usize;

    /// Writes the event at a place of the present generation.
    pub fn jc_event(h: *mut Handle, place: usize, out: *mut FlatEvent) -> u32;

    /// Ends the present generation.
    pub fn jc_end_generation(h: *mut Handle) -> u32;

    /// Writes whether these events are a legal history of one stripe of a cache of this shape, which began with these entries.
    pub fn jc_legal(
        shape: *const Shape,
        opening: *const Entry,
        opening_count: usize,
        events: *const FlatEvent,
        events_count: usize,
        is_legal: *mut bool,
    ) -> u32;
}
