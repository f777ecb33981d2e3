//! Courses of calls, event by event: the outcome that each event shows, and the events of the call that fit then.
//!
//! A course is a text with a line for each event. It has the event's name, the number of its call and a key; after a colon a word
//! for the outcome that it shows; and after a semicolon the names of all events with this call and this key that fit then, or
//! `none`. Each other event must have the outcome `Unfit`.
//!
//! An event `invalidate` is of no call: what fits then is that of the call that is named.
//!
//! Call N is by session N modulo 100: calls 1 and 101 by session 1, and call 100 by none. A put puts the number of its call.
use super::{audits, differs, key_of, opened_world, value_of};
use jc_model::{LoadAnswer, Op};
use jc_types::Key;
use jc_world::command::Command;
use jc_world::event::{Outcome, Over, Shown, WorldEvent};
use jc_world::reports::LeftKeys;
use jc_world::world::World;
use std::alloc::Global;
use std::process::Abort;

/// The events of a call that is under way.
const EVENTS: &str = "start read say change report commit withdraw leave pickup";

/// An event by its name, with a call by its number.
pub fn event_of(rt: &impl Abort, alloc: Global, name: &str, number: &str, key: Key) -> WorldEvent {
    let call: u64 = number.parse().ok().expect(rt, "a number");
    match name {
        "start" => WorldEvent::Start { call, key },
        "read" => WorldEvent::Read { call, key },
        "say" => WorldEvent::Say {
            call,
            key,
            answer: LoadAnswer::Nothing,
        },
        "unsaid" => WorldEvent::Say {
            call,
            key,
            answer: LoadAnswer::NotAsked,
        },
        "change" => WorldEvent::Change { call, key },
        "report" => WorldEvent::Report {
            call,
            left: LeftKeys::new(alloc),
            fault: None,
        },
        "commit" => WorldEvent::Commit { call, key },
        "withdraw" => WorldEvent::Withdraw { call, key },
        "leave" => WorldEvent::Leave { call },
        "pickup" => WorldEvent::PickUp { call, key },
        "invalidate" => WorldEvent::Invalidate { key },
        _ => WorldEvent::Call {
            call,
            session: (call % 100) as u32,
            command: Command::Single {
                op: op_of(rt, name, number),
                key,
            },
        },
    }
}

fn op_of(rt: &impl Abort, name: &str, number: &str) -> Op {
    match name {
        "get" => Op::Get,
        "put" => Op::Put(value_of(rt, number)),
        "clear" => Op::Clear,
        "loadall" => Op::LoadAll { replace: false },
        "invoke" => Op::Invoke,
        _ => panic!(rt; "no event"),
    }
}

/// A word for an outcome.
pub fn word_of(outcome: &Outcome) -> &'static str {
    match outcome {
        Outcome::Begun => "begun",
        Outcome::Looked => "looked",
        Outcome::Stepped(_) => "stepped",
        Outcome::Loads => "loads",
        Outcome::Asks(_) => "asks",
        Outcome::Joins => "joins",
        Outcome::Refused(_) => "refused",
        Outcome::PutOff(_) => "putoff",
        Outcome::Reads(_) => "reads",
        Outcome::Says(_) => "says",
        Outcome::Changed => "changed",
        Outcome::Reported(reported) => {
            if reported.keys.as_slice().iter().all(|key| key.is_changed) {
                "done"
            } else {
                "undone"
            }
        }
        Outcome::Withdrawn(_) => "withdrawn",
        Outcome::Left => "left",
        Outcome::PickedUp(_) => "pickedup",
        Outcome::Waits => "waits",
        Outcome::Again => "again",
        Outcome::Written => "written",
        Outcome::Marked => "marked",
        Outcome::Invalidated(Some(_)) => "evicted",
        Outcome::Invalidated(None) => "nothing",
        Outcome::Processes(_) => "processes",
        Outcome::Processed(_) => "processed",
        Outcome::Reopened(_) => "reopened",
        Outcome::Unfit => "unfit",
    }
}

/// Plays one event, and returns what it shows.
pub fn shown_of(rt: &impl Abort, alloc: Global, world: &mut World, event: WorldEvent) -> Shown {
    let mut seen = Vec::new(alloc);
    world.play(&[event], &mut seen).expect(rt, "memory");
    seen.pop().expect(rt, "what is shown")
}

/// Plays one event, and asserts that it shows this. Returns the call that is over with it, if one is.
pub fn shows(
    rt: &impl Abort,
    alloc: Global,
    world: &mut World,
    event: WorldEvent,
    word: &str,
    line: &str,
) -> Option<Over> {
    let shown = shown_of(rt, alloc, world, event);
    assert!(rt; word_of(&shown.outcome) == word, "{line}");
    shown.over
}

/// Asserts that of the events with this call and this key exactly these fit.
fn fit(
    rt: &impl Abort,
    alloc: Global,
    world: &mut World,
    number: &str,
    key: Key,
    fitting: &str,
    line: &str,
) {
    for name in EVENTS.split(' ') {
        let event = event_of(rt, alloc, name, number, key);
        let fits = fitting.contains(name);
        assert!(rt; world.fits(&event) == fits, "{name} after {line}");
        if fits {
            drop(event);
        } else {
            shows(rt, alloc, world, event, "unfit", line);
        }
    }
}

/// Plays a course. Returns the call that is over with its last event, if one is.
pub fn plays(rt: &impl Abort, alloc: Global, world: &mut World, course: &str) -> Option<Over> {
    let mut over = None;
    for line in course.lines() {
        let (event, fitting) = line.split_once("; ").expect(rt, "what fits then");
        let (event, word) = event.split_once(": ").expect(rt, "what is shown");
        let (name, event) = event.split_once(' ').expect(rt, "a name");
        let (number, key) = event.split_once(' ').expect(rt, "a number");
        let key = key_of(rt, key);
        let event = event_of(rt, alloc, name, number, key);
        over = shows(rt, alloc, world, event, word, line);
        fit(rt, alloc, world, number, key, fitting, line);
    }
    over
}

// At first this operation is no call by itself, no session has such a number, and no call is under way. Then there is a busy
// session, a number that doesn't rise, another key, another call's number, and a call that is over.
const LOAD: &str = "\
loadall 1 b: unfit; none
get 100 b: unfit; none
get 33 b: unfit; none
start 1 a: unfit; none
get 32 a: begun; start leave
get 132 b: unfit; none
get 32 b: unfit; leave
get 31 b: unfit; none
start 32 b: unfit; leave
start 31 a: unfit; none
start 32 a: loads; read say withdraw
unsaid 32 a: unfit; read say withdraw
read 32 b: unfit; none
read 31 a: unfit; none
read 32 a: reads; commit
commit 32 a: stepped; none
get 32 a: unfit; none
get 31 a: unfit; none
";

#[test]
fn fits_the_course_of_a_load(rt: HostRuntime) {
    let alloc = rt.alloc();
    let mut world = opened_world(&rt, alloc);
    plays(&rt, alloc, &mut world, LOAD);
    audits(&rt, alloc, &world, "1", "1", 1);
    world.close();
}

// A call that doesn't fit leaves the world fresh.
#[test]
fn stays_fresh_without_a_call(rt: HostRuntime) {
    let alloc = rt.alloc();
    let mut world = opened_world(&rt, alloc);
    plays(&rt, alloc, &mut world, "get 33 b: unfit; none\n");
    assert!(rt; world.is_fresh() && world.is_new(0));
    world.close();
}

// A clear of a reserved key is refused.
const RESERVED: &str = "\
get 1 a: begun; start leave
start 1 a: loads; read say withdraw
read 1 a: reads; commit
clear 2 a: begun; start leave
start 2 a: refused; none
commit 1 a: stepped; none
";

const CLEARED: &str = "\
clear 3 a: begun; start leave
start 3 a: stepped; none
";

/// Asserts which keys are foreign, and which of them are untold: as many as this.
fn counts(rt: &impl Abort, alloc: Global, world: &World, foreign: usize, untold: usize) {
    let keys = world.foreign_keys(alloc).expect(rt, "memory");
    assert!(rt; keys.len() == foreign);
    let keys = world.untold_keys(alloc).expect(rt, "memory");
    assert!(rt; keys.len() == untold);
}

// Somebody else writes a key while it is reserved. It is untold until a clear of it is done.
#[test]
fn tells_by_a_clear(rt: HostRuntime) {
    let alloc = rt.alloc();
    let mut world = opened_world(&rt, alloc);
    let key = key_of(&rt, "a");
    let write = WorldEvent::Foreign { key, value: None };
    plays(&rt, alloc, &mut world, RESERVED);
    counts(&rt, alloc, &world, 0, 0);
    shows(
        &rt,
        alloc,
        &mut world,
        write,
        "written",
        "a write of others",
    );
    assert!(rt; world.is_untold(&key));
    counts(&rt, alloc, &world, 1, 1);
    plays(&rt, alloc, &mut world, CLEARED);
    assert!(rt; !world.is_untold(&key));
    counts(&rt, alloc, &world, 1, 0);
    world.close();
}

// An invalidation finds nothing, an entry, or a reservation.
const INVALIDATED: &str = "\
invalidate 1 a: nothing; none
get 1 a: begun; start leave
start 1 a: loads; read say withdraw
read 1 a: reads; commit
commit 1 a: stepped; none
invalidate 1 a: evicted; none
get 2 a: begun; start leave
start 2 a: loads; read say withdraw
read 2 a: reads; commit
invalidate 2 a: marked; commit
get 3 a: begun; start leave
start 3 a: refused; none
";

// The commit evicts what it has loaded, so that the next get loads again. That one gives its reservation back.
const FORGOTTEN: &str = "\
commit 2 a: stepped; none
get 4 a: begun; start leave
start 4 a: loads; read say withdraw
invalidate 4 a: marked; read say withdraw
withdraw 4 a: withdrawn; start leave
start 4 a: loads; read say withdraw
read 4 a: reads; commit
commit 4 a: stepped; none
";

// Somebody else writes a key while it is reserved and invalidated. It is untold until the reservation ends.
#[test]
fn tells_by_an_invalidation(rt: HostRuntime) {
    let alloc = rt.alloc();
    let mut world = opened_world(&rt, alloc);
    let key = key_of(&rt, "a");
    plays(&rt, alloc, &mut world, INVALIDATED);
    let value = Some(value_of(&rt, "7"));
    let write = WorldEvent::Foreign { key, value };
    shows(
        &rt,
        alloc,
        &mut world,
        write,
        "written",
        "a write of others",
    );
    assert!(rt; world.is_untold(&key));
    plays(&rt, alloc, &mut world, FORGOTTEN);
    assert!(rt; !world.is_untold(&key));
    counts(&rt, alloc, &world, 0, 0);
    audits(&rt, alloc, &world, "7", "7", 5);
    world.close();
}

// A writer may change the store twice, and it may report success and have changed nothing. Then the cache differs. The put that
// is out at the end is given back.
const WRITE: &str = "\
put 1 a: begun; start leave
start 1 a: asks; change report withdraw
read 1 b: unfit; report
change 1 a: changed; change report
get 2 a: begun; start leave
start 2 a: refused; none
change 1 a: changed; change report
report 1 a: done; commit
commit 1 a: stepped; none
put 3 a: begun; start leave
start 3 a: asks; change report withdraw
report 3 a: undone; commit
commit 3 a: stepped; none
put 4 a: begun; start leave
start 4 a: asks; change report withdraw
";

#[test]
fn fits_the_course_of_a_write(rt: HostRuntime) {
    let alloc = rt.alloc();
    let mut world = opened_world(&rt, alloc);
    plays(&rt, alloc, &mut world, WRITE);
    audits(&rt, alloc, &world, "3", "1", 2);
    differs(&rt, alloc, &world, "a ");
    world.close();
}

// Call 1 gives its reservation back, and loads after all. Call 2 is told to retry, and joins once more.
const JOIN: &str = "\
get 1 a: begun; start leave
get 2 a: begun; start leave
start 1 a: loads; read say withdraw
start 2 a: joins; pickup
pickup 2 a: waits; pickup
withdraw 1 a: withdrawn; start leave
pickup 2 a: again; start leave
start 1 a: loads; read say withdraw
start 2 a: joins; pickup
read 1 a: reads; commit
commit 1 a: stepped; none
pickup 2 a: pickedup; none
";

// Call 3 gives its reservation back and leaves. At the end a load and a call that has joined it are out.
const LEAVE: &str = "\
get 3 b: begun; start leave
start 3 b: loads; read say withdraw
withdraw 3 b: withdrawn; start leave
leave 3 b: left; none
get 5 b: begun; start leave
start 5 b: loads; read say withdraw
get 6 b: begun; start leave
start 6 b: joins; pickup
";

#[test]
fn fits_the_course_of_a_join(rt: HostRuntime) {
    let alloc = rt.alloc();
    let mut world = opened_world(&rt, alloc);
    plays(&rt, alloc, &mut world, JOIN);
    audits(&rt, alloc, &world, "1", "1", 2);
    plays(&rt, alloc, &mut world, LEAVE);
    let b = key_of(&rt, "b");
    assert!(rt; world.is_joined(6, &b) && !world.is_joined(5, &b));
    world.close();
}
