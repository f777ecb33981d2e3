//! Random calls with many keys of four sessions, each on a thread of its own, on a cache that is too small for their keys, before
//! loaders and writers that fail now and then.
use super::outside::Outside;
use super::unreliable::{Failures, Keys, is_failure_code};
use super::*;
use crate::common::increment;
use indexmap::{IndexMap, IndexSet};
use jc_bulk::{BulkFault, clear, get_all, load_keys, put_all, remove_all, remove_every};
use jc_invoke::invoke_all;

/// How many calls each session makes.
const CALLS: u64 = 60;

/// How many keys there are, and how many are drawn for a call.
const KEYS: u64 = 40;

const MOST: u64 = 12;

/// Numbers that look random (Knuth's linear congruential generator).
#[derive(Drop)]
struct Random(u64);

impl Random {
    /// A number below this one.
    fn below(&mut self, end: u64) -> u64 {
        self.0 = self
            .0
            .wrapping_mul(6_364_136_223_846_793_005)
            .wrapping_add(1_442_695_040_888_963_407);
        (self.0 >> 33) % end
    }
}

/// The two digits of a number below 100.
fn digits(number: u64) -> [u8; 2] {
    let number = (number % 100) as u8;
    [b'0' + number / 10, b'0' + number % 10]
}

/// Some keys.
fn drawn_keys(rt: &impl Abort, alloc: Global, random: &mut Random) -> IndexSet<Key> {
    let mut keys = IndexSet::new(alloc);
    let count = random.below(MOST);
    for _ in 0..=count {
        let key = Key::new(&digits(random.below(KEYS)))
            .ok()
            .expect(rt, "a key");
        let _is_new = keys.insert(key).ok().expect(rt, "memory");
    }
    keys
}

/// Some entries, whose values are numbers.
fn drawn_entries(rt: &impl Abort, alloc: Global, random: &mut Random) -> IndexMap<Key, Value> {
    let mut entries = IndexMap::new(alloc);
    for key in &drawn_keys(rt, alloc, random) {
        let value = Value::new(&digits(random.below(100)))
            .ok()
            .expect(rt, "a value");
        let _old = entries.insert(*key, value).ok().expect(rt, "memory");
    }
    entries
}

/// The keys of a list.
fn set_of(keys: &IndexSet<Key>) -> Keys {
    let mut set = Keys::NONE;
    for key in keys {
        set = set.with(key);
    }
    set
}

/// The keys that were found.
fn found_of(found: &IndexMap<Key, Value>) -> Keys {
    let mut set = Keys::NONE;
    for (key, _value) in found {
        set = set.with(key);
    }
    set
}

/// What a session's loader and writer have failed at since its last call, and their code.
#[derive(Clone, Copy)]
struct OwnFaults {
    keys: Keys,
    code: u32,
}

impl OwnFaults {
    fn of(failures: &Failures) -> OwnFaults {
        OwnFaults {
            keys: failures.take(),
            code: failures.code(),
        }
    }

    /// Whether a key has failed in a load: with the code of its session's own loader if that one has failed there, and else with
    /// another one's, whose load it has joined.
    fn explains(self, key: &Key, why: Refusal) -> bool {
        match why {
            Refusal::LoaderFailed(code) => {
                is_failure_code(code) && (code == self.code) == self.keys.has(key)
            }
            _ => false,
        }
    }
}

/// The keys that failed, each with this.
fn failed_of(rt: &impl Abort, failed: &IndexMap<Key, Refusal>, want: Refusal) -> Keys {
    let mut set = Keys::NONE;
    for (key, why) in failed {
        is(rt, *why, want);
        set = set.with(key);
    }
    set
}

/// The keys that failed, each in a load.
fn unloaded_of(rt: &impl Abort, failed: &IndexMap<Key, Refusal>, faults: OwnFaults) -> Keys {
    let mut set = Keys::NONE;
    for (key, why) in failed {
        assert!(rt; faults.explains(key, *why));
        set = set.with(key);
    }
    set
}

/// The call failed at exactly those keys which the writer has left.
fn is_written(rt: &impl Abort, returned: Result<(), BulkFault>, faults: OwnFaults) {
    let down = Refusal::WriterFailed(faults.code);
    let failed = match returned {
        Ok(()) => Keys::NONE,
        Err(fault) => {
            is(rt, fault.cause, down);
            failed_of(rt, &fault.failed, down)
        }
    };
    is(rt, failed, faults.keys);
}

/// Whether one of the keys that failed did so with this.
fn has_failed_with(failed: &IndexMap<Key, Refusal>, cause: Refusal) -> bool {
    for (_key, why) in failed {
        if *why == cause {
            return true;
        }
    }
    false
}

/// A call that loads failed at the keys for which its own loader has failed, and at none that it doesn't name. At others it may have
/// joined a load that failed.
fn is_loaded(rt: &impl Abort, fault: &BulkFault, keys: Keys, faults: OwnFaults) -> Keys {
    assert!(rt; has_failed_with(&fault.failed, fault.cause));
    let failed = unloaded_of(rt, &fault.failed, faults);
    assert!(rt; faults.keys.are_among(failed));
    assert!(rt; failed.are_among(keys));
    failed
}

/// The same of a call that may have failed.
fn is_loaded_or_well(
    rt: &impl Abort,
    returned: Result<(), BulkFault>,
    keys: Keys,
    faults: OwnFaults,
) {
    match returned {
        Ok(()) => assert!(rt; faults.keys.are_among(Keys::NONE)),
        Err(fault) => {
            let _failed = is_loaded(rt, &fault, keys, faults);
        }
    }
}

fn put_some<R: Abort + Wait>(
    rt: &R,
    alloc: Global,
    cache: &Cache,
    session: &mut Session,
    failures: &Failures,
    random: &mut Random,
) {
    let entries = drawn_entries(rt, alloc, random);
    let own = session.own();
    let returned = put_all(alloc, rt, cache, session, &entries);
    is_written(rt, returned, OwnFaults::of(failures));
    is(rt, session.own().wrapping_sub(own), entries.len() as u64);
}

fn remove_some<R: Abort + Wait>(
    rt: &R,
    alloc: Global,
    cache: &Cache,
    session: &mut Session,
    failures: &Failures,
    random: &mut Random,
) {
    let keys = drawn_keys(rt, alloc, random);
    let own = session.own();
    let returned = remove_all(alloc, rt, cache, session, &keys);
    is_written(rt, returned, OwnFaults::of(failures));
    is(rt, session.own().wrapping_sub(own), keys.len() as u64);
}

/// What was found is among the keys, and didn't fail.
fn is_got(
    rt: &impl Abort,
    returned: Result<IndexMap<Key, Value>, BulkFault>,
    keys: Keys,
    faults: OwnFaults,
) {
    match returned {
        Ok(found) => {
            assert!(rt; faults.keys.are_among(Keys::NONE));
            assert!(rt; found_of(&found).are_among(keys));
        }
        Err(fault) => are_apart(rt, &fault, keys, faults),
    }
}

/// The same of a call that failed.
fn are_apart(rt: &impl Abort, fault: &BulkFault, keys: Keys, faults: OwnFaults) {
    let failed = is_loaded(rt, fault, keys, faults);
    let found = found_of(&fault.found);
    assert!(rt; found.are_among(keys));
    assert!(rt; found.are_apart_from(failed));
}

fn get_some<R: Abort + Wait>(
    rt: &R,
    alloc: Global,
    cache: &Cache,
    session: &mut Session,
    failures: &Failures,
    random: &mut Random,
) {
    let keys = drawn_keys(rt, alloc, random);
    let own = session.own();
    let returned = get_all(alloc, rt, cache, session, &keys);
    is_got(rt, returned, set_of(&keys), OwnFaults::of(failures));
    is(rt, session.own().wrapping_sub(own), keys.len() as u64);
}

fn load_some<R: Abort + Wait>(
    rt: &R,
    alloc: Global,
    cache: &Cache,
    session: &mut Session,
    failures: &Failures,
    random: &mut Random,
) {
    let keys = drawn_keys(rt, alloc, random);
    let replace = random.below(2) == 0;
    let own = session.own();
    let returned = load_keys(alloc, rt, cache, session, &keys, replace);
    is_loaded_or_well(rt, returned, set_of(&keys), OwnFaults::of(failures));
    is(rt, session.own().wrapping_sub(own), keys.len() as u64);
}

/// The keys whose results are faults of the loader or the writer, with this code.
fn down_in(rt: &impl Abort, results: &IndexMap<Key, Result<Value, Refusal>>, code: u32) -> Keys {
    let mut set = Keys::NONE;
    for (key, one) in results {
        if let Err(why) = one {
            assert!(rt; *why == Refusal::LoaderFailed(code) || *why == Refusal::WriterFailed(code));
            set = set.with(key);
        }
    }
    set
}

/// Each key has a result, and just those are faults for which the loader or the writer has failed.
fn is_invoked(
    rt: &impl Abort,
    returned: Result<IndexMap<Key, Result<Value, Refusal>>, Refusal>,
    faults: OwnFaults,
    count: usize,
) {
    let results = returned.ok().expect(rt, "results");
    is(rt, down_in(rt, &results, faults.code), faults.keys);
    is(rt, results.len(), count);
}

fn invoke_some<R: Abort + Wait>(
    rt: &R,
    alloc: Global,
    cache: &Cache,
    session: &mut Session,
    failures: &Failures,
    random: &mut Random,
) {
    let keys = drawn_keys(rt, alloc, random);
    let mut processor = increment(rt, alloc);
    let own = session.own();
    let returned = invoke_all(alloc, rt, cache, session, &keys, &mut processor, &[]);
    is_invoked(rt, returned, OwnFaults::of(failures), keys.len());
    is(rt, session.own().wrapping_sub(own), keys.len() as u64);
}

/// Removes all entries, or clears them. A `clear` asks nobody, and can't fail.
fn sweep<R: Abort + Wait>(
    rt: &R,
    alloc: Global,
    cache: &Cache,
    session: &mut Session,
    failures: &Failures,
    random: &mut Random,
) {
    if random.below(2) == 0 {
        let returned = clear(alloc, rt, cache, session);
        is_written(rt, returned, OwnFaults::of(failures));
    } else {
        let returned = remove_every(alloc, rt, cache, session);
        is_written(rt, returned, OwnFaults::of(failures));
    }
}

/// Makes a random call.
fn call_once<R: Abort + Wait>(
    rt: &R,
    alloc: Global,
    cache: &Cache,
    session: &mut Session,
    failures: &Failures,
    random: &mut Random,
) {
    match random.below(16) {
        0..=3 => put_some(rt, alloc, cache, session, failures, random),
        4..=7 => get_some(rt, alloc, cache, session, failures, random),
        8..=9 => remove_some(rt, alloc, cache, session, failures, random),
        10..=12 => invoke_some(rt, alloc, cache, session, failures, random),
        13..=14 => load_some(rt, alloc, cache, session, failures, random),
        _ => sweep(rt, alloc, cache, session, failures, random),
    }
}

/// Makes random calls, always the same ones for a place. The place's loader and writer note their failures.
pub fn call_often<R: Abort + Wait>(
    rt: &R,
    alloc: Global,
    cache: &Cache,
    session: &mut Session,
    outside: &Outside,
    place: &str,
) {
    let place: u32 = place.parse().ok().expect(rt, "a place");
    let failures = outside.failures(rt, place as usize);
    let mut random = Random(u64::from(place));
    for _ in 0..CALLS {
        call_once(rt, alloc, cache, session, failures, &mut random);
    }
}

/// Loaders and writers that never fail.
pub const RELIABLE: &str = "\
open 4 3 16384
before 00=1 07=2 12=3 39=4
sessions 4
fault none
end coherent
beside random 0 | random 1 | random 2 | random 3
";

/// Some that fail at each fifth call.
pub const UNRELIABLE: &str = "\
open 4 3 16384
before 00=1 07=2 12=3 39=4
sessions 4 every 5
fault none
end coherent
beside random 0 | random 1 | random 2 | random 3
";

/// Reliable ones on a cache that lives on, over the shortest histories.
pub const LIVING: &str = "\
open 4 3 16 lives
before 00=1 07=2 12=3 39=4
sessions 4
fault none
end coherent
beside random 0 | random 1 | random 2 | random 3
";
