//! Calls of many keys, event by event: processors at several keys, whose writes fail in part, and a batch whose writes do.
use super::courses::{plays, shows};
use super::{differs, is_in_order, key_of, opened_world, value_of};
use indexmap::IndexSet;
use jc_model::EntryCall;
use jc_types::{BULK_KEYS_MAX, Key, Refusal};
use jc_world::command::Command;
use jc_world::event::{Over, WorldEvent};
use jc_world::process::{EntryCalls, LoadSource};
use jc_world::reports::LeftKeys;
use jc_world::world::World;
use std::alloc::Global;
use std::process::Abort;

/// Session 1 begins a call at these keys. Asserts that this is shown.
fn begins(
    rt: &impl Abort,
    alloc: Global,
    world: &mut World,
    call: u64,
    keys: IndexSet<Key>,
    word: &str,
) {
    let begin = WorldEvent::Call {
        call,
        session: 1,
        command: Command::InvokeAll { keys },
    };
    shows(rt, alloc, world, begin, word, "the call");
}

/// The processor of call 1 makes this call at a key. Asserts that this is shown.
fn processes(
    rt: &impl Abort,
    alloc: Global,
    world: &mut World,
    name: &str,
    entry_call: EntryCall,
    word: &str,
) {
    let mut calls = EntryCalls::new(alloc);
    calls.push(entry_call).expect(rt, "memory");
    let process = WorldEvent::Process {
        call: 1,
        key: key_of(rt, name),
        load: LoadSource::Store,
        calls,
        fail: None,
    };
    shows(rt, alloc, world, process, word, name);
}

/// The processor of call 1 sets 7 at a key. Asserts that this is shown.
fn sets(rt: &impl Abort, alloc: Global, world: &mut World, name: &str, word: &str) {
    let seven = EntryCall::SetValue(value_of(rt, "7"));
    processes(rt, alloc, world, name, seven, word);
}

/// The keys that a text names.
fn keys_of(rt: &impl Abort, alloc: Global, text: &str) -> IndexSet<Key> {
    let mut keys = IndexSet::new(alloc);
    for name in text.split(' ') {
        keys.insert(key_of(rt, name)).ok().expect(rt, "memory");
    }
    keys
}

/// The keys are reserved in any order, and each is given to its processor.
const ALL_STARTED: &str = "\
start 1 b: processes; withdraw
start 1 c: processes; withdraw
start 1 a: processes; withdraw
commit 1 a: unfit; withdraw
";

/// The processor of c has not run: the writer isn't asked for the other keys.
const ONE_WAITS: &str = "\
change 1 a: unfit; none
report 1 b: unfit; none
commit 1 a: unfit; none
start 1 c: unfit; withdraw
";

/// Now it is asked for the writes, and not yet for the delete.
const WRITES_CHANGED: &str = "\
change 1 c: unfit; report
change 1 a: changed; change report
commit 1 b: unfit; change report
";

/// It has returned for these, and is asked for the delete. The keys of the first return can be committed.
const DELETE_CHANGED: &str = "\
change 1 b: unfit; report commit
change 1 c: changed; change report
commit 1 a: stepped; report
report 1 c: done; commit
commit 1 b: stepped; none
commit 1 c: stepped; none
";

/// The writer returns normally for call 1. It hasn't changed the store, and its collection still holds a key.
fn leaves(rt: &impl Abort, alloc: Global, world: &mut World, name: &str) {
    let left = LeftKeys::one(alloc, &key_of(rt, name)).expect(rt, "memory");
    let report = WorldEvent::Report {
        call: 1,
        left,
        fault: None,
    };
    shows(rt, alloc, world, report, "undone", "the report");
}

/// An `invokeAll` asks the writer twice: for its writes, once each processor has run, and then for its deletes. A key that the
/// first return leaves has failed, and the failure is that key's alone.
#[test]
fn asks_for_writes_and_then_for_deletes(rt: HostRuntime) {
    let alloc = rt.alloc();
    let mut world = opened_world(&rt, alloc);
    let keys = keys_of(&rt, alloc, "a b c");
    begins(&rt, alloc, &mut world, 1, keys, "begun");
    sets(&rt, alloc, &mut world, "a", "unfit");
    plays(&rt, alloc, &mut world, ALL_STARTED);
    sets(&rt, alloc, &mut world, "b", "processed");
    sets(&rt, alloc, &mut world, "a", "processed");
    plays(&rt, alloc, &mut world, ONE_WAITS);
    processes(&rt, alloc, &mut world, "c", EntryCall::Remove, "processed");
    plays(&rt, alloc, &mut world, WRITES_CHANGED);
    leaves(&rt, alloc, &mut world, "b");
    let over = plays(&rt, alloc, &mut world, DELETE_CHANGED);
    let (call, cause) = (1, None);
    assert!(rt; over == Some(Over { call, cause }), "no cause");
    is_in_order(&rt, alloc, &world, "a b c ");
    differs(&rt, alloc, &world, "");
    world.close();
}

/// Both keys of a batch are asked of the writer, in any order, and it deletes the first.
const BATCH_CHANGED: &str = "\
start 1 b: asks; change report withdraw
start 1 a: asks; change report withdraw
change 1 a: changed; change report
";

/// The writer has returned for both.
const BATCH_COMMITTED: &str = "\
report 1 a: unfit; commit
commit 1 b: stepped; none
commit 1 a: stepped; none
";

/// The writer returns normally, and its collection still has a key: that key failed.
#[test]
fn commits_what_the_writer_did_not_leave(rt: HostRuntime) {
    let alloc = rt.alloc();
    let mut world = opened_world(&rt, alloc);
    let command = Command::RemoveAll {
        keys: keys_of(&rt, alloc, "a b"),
    };
    let (call, session) = (1, 1);
    let begin = WorldEvent::Call {
        call,
        session,
        command,
    };
    shows(&rt, alloc, &mut world, begin, "begun", "the call");
    plays(&rt, alloc, &mut world, BATCH_CHANGED);
    leaves(&rt, alloc, &mut world, "b");
    let over = plays(&rt, alloc, &mut world, BATCH_COMMITTED);
    let cause = Some(Refusal::WriterFailed(0));
    assert!(rt; over == Some(Over { call, cause }), "its cause");
    is_in_order(&rt, alloc, &world, "b a ");
    world.close();
}

/// `count` keys.
fn many_keys(rt: &impl Abort, alloc: Global, count: usize) -> IndexSet<Key> {
    let mut keys = IndexSet::new(alloc);
    for number in 0..count {
        let key = Key::new(&number.to_be_bytes()).expect(rt, "a key");
        keys.insert(key).ok().expect(rt, "memory");
    }
    keys
}

/// A call with too many keys is over at once, and its number is used. A call with the most keys is begun.
#[test]
fn refuses_too_many_keys_at_once(rt: HostRuntime) {
    let alloc = rt.alloc();
    let mut world = opened_world(&rt, alloc);
    let keys = many_keys(&rt, alloc, BULK_KEYS_MAX + 1);
    begins(&rt, alloc, &mut world, 1, keys, "refused");
    assert!(rt; !world.is_busy(1) && !world.is_new(1), "it is over");
    let keys = many_keys(&rt, alloc, BULK_KEYS_MAX);
    begins(&rt, alloc, &mut world, 2, keys, "begun");
    assert!(rt; world.is_busy(1), "it is under way");
    world.close();
}
