//! The numbers of the header, without their `JC_`. `tests/header.rs` compares each one with it.

/// The header's version: 1,000,000 * major + 1,000 * minor + patch. Before 1.0 a library of another minor version may have other structs.
pub const VERSION: u32 = 2000;

/// The most bytes of a key.
pub const KEY_MAX: usize = 32;
/// The most bytes of a value.
pub const VALUE_MAX: usize = 256;
/// The most stripes of a cache.
pub const STRIPES_MAX: usize = 64;
/// The most entries of a stripe.
pub const CAPACITY_MAX: usize = 4096;
/// The fewest events of a generation.
pub const HISTORY_MIN: usize = 16;
/// The most events of a generation.
pub const HISTORY_MAX: usize = 65536;
/// The most keys of a stripe that are reserved at a time.
pub const RESERVATIONS_MAX: usize = 64;
/// The most calls of a stripe that have joined a load at a time.
pub const JOINERS_MAX: usize = 64;
/// The size of [`Out`](crate::Out).
pub const OUT_SIZE: u32 = 856;

// Codes: on any but OK nothing was done.

/// It was done.
pub const OK: u32 = 0;
/// The handle isn't open; of `jc_open`: it is open already.
pub const CODE_WRONG_HANDLE: u32 = 1;
/// An allocation failed.
pub const CODE_NO_MEMORY: u32 = 2;
/// A key of 0 or over 32 bytes, a value of over 256, an unknown operation or answer, or a shape out of its limits.
pub const CODE_BAD_ARGUMENT: u32 = 3;
/// The host broke a rule: see at each function.
pub const CODE_MISUSE: u32 = 4;
/// A ticket or a join is out; of `jc_end_generation`: it has no event, or an answer is parked.
pub const CODE_IN_USE: u32 = 5;
/// There is no entry, or no such event.
pub const CODE_NONE: u32 = 6;

// Operations of `jc_begin`.

/// `get`.
pub const OP_GET: u32 = 0;
/// `containsKey`.
pub const OP_CONTAINS_KEY: u32 = 1;
/// `put`.
pub const OP_PUT: u32 = 2;
/// `getAndPut`.
pub const OP_GET_AND_PUT: u32 = 3;
/// `putIfAbsent`.
pub const OP_PUT_IF_ABSENT: u32 = 4;
/// `remove`.
pub const OP_REMOVE: u32 = 5;
/// `remove` of a key that has this value.
pub const OP_REMOVE_IF: u32 = 6;
/// `getAndRemove`.
pub const OP_GET_AND_REMOVE: u32 = 7;
/// `replace`.
pub const OP_REPLACE: u32 = 8;
/// `replace` of this value by another one.
pub const OP_REPLACE_IF: u32 = 9;
/// `getAndReplace`.
pub const OP_GET_AND_REPLACE: u32 = 10;
/// One key of `clear`: no writer is asked.
pub const OP_CLEAR_KEY: u32 = 11;
/// One key of `loadAll`, if it has no entry.
pub const OP_LOAD: u32 = 12;
/// One key of `loadAll`, in any case.
pub const OP_RELOAD: u32 = 13;
/// `invoke`.
pub const OP_INVOKE: u32 = 14;

// `Out::next`: what the host does next.

/// Nothing: the call is over.
pub const NEXT_DONE: u32 = 0;
/// Ask the loader, then `jc_commit_load`.
pub const ASK_LOAD: u32 = 1;
/// Have the writer write `Out::value`, then `jc_commit_write`.
pub const ASK_WRITE: u32 = 2;
/// Have the writer delete the key, then `jc_commit_write`.
pub const ASK_DELETE: u32 = 3;
/// Run the processor, then `jc_commit_process`.
pub const ASK_PROCESS: u32 = 4;
/// Another call loads this key: wait for its end, then `jc_pick_up`.
pub const NEXT_JOINED: u32 = 5;
/// Nothing was done; `Out::reply` says why.
pub const NEXT_REFUSED: u32 = 6;
/// Of `jc_pick_up`: the load was withdrawn; begin anew.
pub const NEXT_AGAIN: u32 = 7;
/// Of `jc_pick_up`: the load isn't over; the join is still out. Of `jc_sweep`: there is no place for an eviction now.
pub const NEXT_NOT_YET: u32 = 8;
/// With `keeps_events`: nothing was done; read the events, call `jc_end_generation`, begin anew.
pub const NEXT_FULL: u32 = 9;
/// Nothing was done: call `jc_sweep` as long as it says this, too, then begin anew.
pub const NEXT_SHUT: u32 = 10;

// `Out::reply` of a call that is over.

/// It was done.
pub const REPLY_UNIT: u32 = 0;
/// No.
pub const REPLY_NO: u32 = 1;
/// Yes.
pub const REPLY_YES: u32 = 2;
/// No value.
pub const REPLY_NULL: u32 = 3;
/// `Out::value`.
pub const REPLY_VALUE: u32 = 4;
/// The loader failed, with `Out::code`.
pub const REPLY_LOADER_FAILED: u32 = 5;
/// The writer failed, with `Out::code`.
pub const REPLY_WRITER_FAILED: u32 = 6;
/// The processor failed, with `Out::code`.
pub const REPLY_PROCESSOR_FAILED: u32 = 7;
/// Never of a desk.
pub const REPLY_OTHER_FAULT: u32 = 8;

// `Out::reply` of a call that was refused.

/// A number is at its end, after 2^64 calls.
pub const REFUSAL_HISTORY_FULL: u32 = 0;
/// The key is reserved, or the history has no room: retry after the next commit, withdrawal or pick-up.
pub const REFUSAL_BUSY: u32 = 1;
/// 64 keys are reserved.
pub const REFUSAL_TOO_MANY_IN_FLIGHT: u32 = 2;
/// 64 calls have joined a load.
pub const REFUSAL_TOO_MANY_JOINERS: u32 = 3;
/// Never of a desk.
pub const REFUSAL_OTHER: u32 = 4;

// `Out::moves`: which values came and went with a step.

/// The key's entry has a value that it hadn't before: the one that this call brought.
pub const MOVE_STORED: u32 = 1;
/// `Out::left` is the value that the key's entry had, and hasn't now.
pub const MOVE_REMOVED: u32 = 2;
/// `Out::victim` had `Out::evicted`, and was evicted for this step, or by this sweep.
pub const MOVE_EVICTED: u32 = 4;
/// The step's own new entry was evicted at once: all others are reserved.
pub const MOVE_OWN_EVICTED_FULL: u32 = 8;
/// The same: there was no memory for it.
pub const MOVE_OWN_EVICTED_MEMORY: u32 = 16;
/// The key's entry was evicted, since the key was invalidated.
pub const MOVE_INVALIDATED: u32 = 32;

// What a loader and a writer answer.

/// It wasn't asked.
pub const ANSWER_NOT_ASKED: u32 = 0;
/// The loader found a value.
pub const ANSWER_FOUND: u32 = 1;
/// The writer wrote or deleted.
pub const ANSWER_WRITTEN: u32 = 1;
/// The loader found that the key has no value.
pub const ANSWER_NOTHING: u32 = 2;
/// It failed.
pub const ANSWER_FAILED: u32 = 3;

// The net effect of a processor.

/// It changed nothing.
pub const EFFECT_KEEP: u32 = 0;
/// It set `Processed::set`.
pub const EFFECT_SET: u32 = 1;
/// It removed the entry.
pub const EFFECT_REMOVE: u32 = 2;
/// It failed, with `Processed::code`.
pub const EFFECT_FAILED: u32 = 3;
/// Of an event alone: no processor ran.
pub const EFFECT_NOT_RUN: u32 = 4;

// Kinds of events, and why an entry was evicted.

/// A call's step.
pub const EVENT_STEP: u32 = 0;
/// An eviction.
pub const EVENT_EVICTION: u32 = 1;
/// The stripe was full.
pub const CAUSE_ROOM: u32 = 0;
/// An allocation for the entry failed.
pub const CAUSE_MEMORY: u32 = 1;
/// The key was invalidated.
pub const CAUSE_INVALIDATED: u32 = 2;
