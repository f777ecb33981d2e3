//! Room for events, and events read back.
use super::{is, key, value};
use jc_history::{History, LentStep};
use jc_model::{Cause, Effect, Event, LoadAnswer, Op, Out, ProcessAnswer, Reply, WriteAnswer};
use jc_types::{Caller, HISTORY_MAX, KEY_MAX, Key, VALUE_MAX, Value};
use std::alloc::Global;
use std::process::Abort;

fn empty(rt: &impl Abort, alloc: Global, limit: usize) -> History {
    assert!(rt; limit <= HISTORY_MAX);
    History::new(alloc, limit).expect(rt, "memory")
}

/// The name of a case, a limit, the places promised of it, the number of further places asked for, whether they fit, and the
/// number that is free then.
type Promise = (&'static str, usize, usize, usize, bool, usize);

const PROMISES: &[Promise] = &[
    ("all", 16, 0, 16, true, 0),
    ("one more than all", 16, 0, 17, false, 16),
    ("the rest", 16, 13, 3, true, 0),
    ("one more than the rest", 16, 13, 4, false, 3),
    ("none of none", 16, 16, 0, true, 0),
    ("far too many", 16, 1, usize::MAX, false, 15),
    ("none of a history with no place", 0, 0, 0, true, 0),
    ("one of a history with no place", 0, 0, 1, false, 0),
    ("the last of the most", 65536, 65535, 1, true, 0),
    ("one more than the most", 65536, 65535, 2, false, 1),
];

/// Asserts the outcome of a promise beside an earlier one.
fn promises(rt: &impl Abort, alloc: Global, promise: &Promise) {
    let (at, limit, promised, asked, fits, free) = *promise;
    assert!(rt; free <= HISTORY_MAX);
    let mut history = empty(rt, alloc, limit);
    is(rt, at, history.promise(promised), true);
    is(rt, at, history.promised(), promised);
    is(rt, at, history.has_room(asked), fits);
    is(rt, at, history.promise(asked), fits);
    is(rt, at, history.has_room(free), true);
    is(rt, at, history.has_room(free + 1), false);
}

#[test]
fn promises_up_to_the_limit(rt: HostRuntime) {
    for promise in PROMISES {
        promises(&rt, rt.alloc(), promise);
    }
}

/// Pushes into a place that is promised for it.
fn pushes(rt: &impl Abort, history: &mut History, event: &Event) {
    let fits = history.promise(1);
    assert!(rt; fits);
    history.push(event, true);
}

/// Pushes a step of which each part is lent into a place that is promised for it.
fn pushes_lent(rt: &impl Abort, history: &mut History, event: &Event) {
    let fits = history.promise(1);
    assert!(rt; fits);
    match event {
        Event::Step {
            caller,
            op,
            key,
            out,
            shared_with,
            reply,
        } => {
            let step = LentStep {
                caller,
                op,
                key,
                out,
                shared_with,
                reply,
            };
            history.push_step(&step, true)
        }
        Event::Evict { .. } => history.push(event, true),
    }
}

fn hit(key: Key, value: Value) -> Event {
    Event::Step {
        caller: Caller {
            session: 1,
            call: 1,
        },
        op: Op::Get,
        key,
        out: Out::nothing_said(),
        shared_with: None,
        reply: Reply::Value(Some(value)),
    }
}

/// Promises `n` places, pushes into two of them, and gives the rest back.
fn pushes_two_of(rt: &impl Abort, history: &mut History, n: usize, event: &Event) {
    let fits = history.promise(n);
    assert!(rt; fits && 2 <= n);
    history.push(event, true);
    history.push(event, true);
    history.unpromise(n - 2);
}

#[test]
fn pushes_into_promised_places(rt: HostRuntime) {
    let event = hit(key(&rt, b"k"), value(&rt, b""));
    let mut history = empty(&rt, rt.alloc(), 4);
    is(&rt, "new", history.len(), 0);
    pushes_two_of(&rt, &mut history, 3, &event);
    is(&rt, "two of four", history.len(), 2);
    is(&rt, "one too many", history.promise(3), false);
    pushes_two_of(&rt, &mut history, 2, &event);
    is(&rt, "full", history.len(), 4);
    is(&rt, "full", history.has_room(1), false);
    is(&rt, "full", history.has_room(0), true);
}

/// A step with as many values as an event has, and each field at its longest. Its reply is its processor's answer.
fn largest(key: Key, loaded: Value, outcome: Value) -> Event {
    Event::Step {
        caller: Caller {
            session: u32::MAX,
            call: u64::MAX,
        },
        op: Op::Invoke,
        key,
        out: Out {
            load: LoadAnswer::Found(loaded),
            write: WriteAnswer::Failed(u32::MAX),
            process: ProcessAnswer::Ended {
                effect: Effect::Set(loaded),
                outcome: Some(outcome),
            },
        },
        shared_with: Some(u32::MAX),
        reply: Reply::Value(Some(outcome)),
    }
}

/// Asserts that this event is at a place, with this reply.
fn reads(rt: &impl Abort, history: &History, place: usize, event: &Event, reply: Option<Reply>) {
    assert!(rt; place < history.len());
    is(rt, "event", history.event(place), *event);
    is(rt, "reply", history.reply(place), reply);
}

/// Appends parts of three events, and asserts them: the last two, the first, and none.
fn appends(rt: &impl Abort, alloc: Global, history: &History, want: &[Event]) {
    let mut found = Vec::new(alloc);
    assert!(rt; history.len() == 3);
    history.append_to(1, 3, &mut found).expect(rt, "memory");
    history.append_to(0, 1, &mut found).expect(rt, "memory");
    history.append_to(3, 3, &mut found).expect(rt, "memory");
    is(rt, "appended", found.as_slice(), want);
}

/// That every event is read back as it was pushed is proved: here are three of different lengths.
#[test]
fn reads_back(rt: HostRuntime) {
    let key = key(&rt, &[255; KEY_MAX]);
    let (empty_value, zeros) = (value(&rt, b""), value(&rt, &[0; VALUE_MAX]));
    let ones = value(&rt, &[1; VALUE_MAX]);
    let first = hit(key, empty_value);
    let second = Event::Evict {
        key,
        cause: Cause::Memory,
    };
    let third = largest(key, zeros, ones);
    let mut history = empty(&rt, rt.alloc(), 3);
    pushes(&rt, &mut history, &first);
    pushes(&rt, &mut history, &second);
    pushes_lent(&rt, &mut history, &third);
    let reply = Some(Reply::Value(Some(empty_value)));
    reads(&rt, &history, 0, &first, reply);
    reads(&rt, &history, 1, &second, None);
    let reply = Some(Reply::Value(Some(ones)));
    reads(&rt, &history, 2, &third, reply);
    is(&rt, "no such place", history.reply(3), None);
    appends(&rt, rt.alloc(), &history, &[second, third, first]);
}
