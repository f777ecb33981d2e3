//! Joiners of two loads, answered and told to retry, and a table that is full. No test is given an allocator.
use super::{is, key};
use jc_inflight::{JoinState, Joiner, Joiners};
use jc_types::{Caller, Key};
use std::process::Abort;

fn caller(session: u32, call: u64) -> Caller {
    Caller { session, call }
}

/// Whether a call has joined a load of the key and hasn't taken its answer.
fn has_joined(joiners: &[Joiner], caller: Caller, key: &Key) -> bool {
    joiners.iter().any(|j| j.belongs_to(caller, key))
}

fn join(rt: &impl Abort, joiners: &mut Joiners, caller: Caller, key: &Key, load: u64) -> bool {
    let joined = has_joined(joiners.list(), caller, key);
    assert!(rt; !joined, "no call joins twice");
    joiners.join(caller, key, load)
}

fn resolve(rt: &impl Abort, joiners: &mut Joiners, load: u64, step: u32) -> u32 {
    assert!(rt; step <= u32::MAX - joiners.waiting(load));
    joiners.resolve(load, step)
}

/// Session, call and key of a call that asks for its answer, and the answer.
type Taken = (u32, u64, &'static str, Option<JoinState>);

fn take(rt: &impl Abort, joiners: &mut Joiners, calls: &[Taken]) {
    for (session, call, name, want) in calls {
        let key = key(rt, name.as_bytes());
        let found = joiners.take(caller(*session, *call), &key);
        is(rt, name, found, *want);
    }
}

/// Two joiners of load 7, at one key, with one of load 8 between them, at another.
fn three(rt: &impl Abort, a: &Key, b: &Key) -> Joiners {
    let mut joiners = Joiners::new();
    is(
        rt,
        "first",
        join(rt, &mut joiners, caller(1, 10), a, 7),
        true,
    );
    is(
        rt,
        "second",
        join(rt, &mut joiners, caller(2, 20), b, 8),
        true,
    );
    is(
        rt,
        "third",
        join(rt, &mut joiners, caller(3, 30), a, 7),
        true,
    );
    joiners
}

// The first and the second answer of the load at place 40.
const FIRST: Option<JoinState> = Some(JoinState::Answered {
    place: 41,
    shared_with: 40,
});

const SECOND: Option<JoinState> = Some(JoinState::Answered {
    place: 42,
    shared_with: 40,
});

const ANSWERS: &[Taken] = &[
    (3, 30, "a", SECOND),
    (2, 20, "b", Some(JoinState::Waiting)),
    (1, 10, "a", FIRST),
    (1, 10, "a", None),
];

#[test]
fn answers_in_the_order_of_joining(rt: HostRuntime) {
    let (a, b) = (key(&rt, b"a"), key(&rt, b"b"));
    let mut joiners = three(&rt, &a, &b);
    let list = joiners.list();
    assert!(rt; list.len() == 3);
    let (first, second, third) = (list[0], list[1], list[2]);
    is(&rt, "first", first.belongs_to(caller(1, 10), &a), true);
    is(&rt, "second", second.belongs_to(caller(2, 20), &b), true);
    is(&rt, "third", third.belongs_to(caller(3, 30), &a), true);
    is(&rt, "another load", second.waits_for(7), false);
    is(&rt, "resolve", resolve(&rt, &mut joiners, 7, 40), 2);
    is(&rt, "no longer", joiners.waiting(7), 0);
    is(&rt, "still", joiners.waiting(8), 1);
    take(&rt, &mut joiners, ANSWERS);
    is(&rt, "length", joiners.list().len(), 1);
}

// Another key, another call and another session take nothing.
const RETRIES: &[Taken] = &[
    (1, 10, "a", Some(JoinState::Again)),
    (3, 30, "a", Some(JoinState::Again)),
    (2, 20, "a", None),
    (2, 21, "b", None),
    (1, 20, "b", None),
];

#[test]
fn tells_the_joiners_of_a_withdrawn_load_to_retry(rt: HostRuntime) {
    let (a, b) = (key(&rt, b"a"), key(&rt, b"b"));
    let mut joiners = three(&rt, &a, &b);
    is(&rt, "no such load", joiners.dissolve(9), 0);
    is(&rt, "dissolve", joiners.dissolve(7), 2);
    is(
        &rt,
        "nobody waits twice",
        resolve(&rt, &mut joiners, 7, 1),
        0,
    );
    take(&rt, &mut joiners, RETRIES);
    is(&rt, "dissolve", joiners.dissolve(8), 1);
    take(&rt, &mut joiners, &[(2, 20, "b", Some(JoinState::Again))]);
    is(&rt, "empty", joiners.is_empty(), true);
}

/// Makes 64 calls join at the key, the even ones load 0 and the others load 1.
fn join_64(rt: &impl Abort, joiners: &mut Joiners, key: &Key) {
    for call in 0..64 {
        is(rt, "full too early", joiners.is_full(), false);
        is(
            rt,
            "join",
            join(rt, joiners, caller(1, call), key, call % 2),
            true,
        );
    }
}

// The call that joined late waits, and the joiner whose place it took is gone.
const LATE: &[Taken] = &[(2, 0, "k", Some(JoinState::Waiting)), (1, 0, "k", None)];

/// No call joins while there are 64 joiners, whether they wait or not. One that is taken leaves a place free.
#[test]
fn holds_64_joiners_and_no_65th(rt: HostRuntime) {
    let mut joiners = Joiners::new();
    let k = key(&rt, b"k");
    join_64(&rt, &mut joiners, &k);
    let late = caller(2, 0);
    is(&rt, "full", join(&rt, &mut joiners, late, &k, 0), false);
    is(&rt, "resolve", resolve(&rt, &mut joiners, 0, 40), 32);
    is(&rt, "dissolve", joiners.dissolve(1), 32);
    is(
        &rt,
        "still full",
        join(&rt, &mut joiners, late, &k, 0),
        false,
    );
    take(&rt, &mut joiners, &[(1, 0, "k", FIRST)]);
    is(&rt, "room", join(&rt, &mut joiners, late, &k, 9), true);
    is(&rt, "full again", joiners.is_full(), true);
    is(&rt, "length", joiners.len(), 64);
    take(&rt, &mut joiners, LATE);
}
