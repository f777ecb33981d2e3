//! The public functions of a world, and cases that scripts can't express: events that don't fit, a writer's change and its return
//! apart, a withdrawal whose call isn't over. The other cases are in `tests/cases`.
//!
//! Each test ends with `close`, since a world can't be dropped.
use courses::{event_of, plays};
use jc_model::{Change, Event, Op, Reply, legal};
use jc_stripe::{First, Reservation};
use jc_types::{Caller, Config, Field, Key, Refusal, Value};
use jc_world::event::{Outcome, Shown};
use jc_world::world::World;
use std::alloc::Global;
use std::process::Abort;

mod courses;
mod looks;
mod many_keys;
mod random;
mod snapshots;

/// A cache with read-through and write-through.
fn config(stripes: usize, capacity: usize, history: usize) -> Config {
    Config {
        stripes,
        capacity,
        history,
        read_through: true,
        write_through: true,
    }
}

fn key_of(rt: &impl Abort, name: &str) -> Key {
    Key::new(name.as_bytes()).expect(rt, "a key")
}

fn value_of(rt: &impl Abort, name: &str) -> Value {
    Value::new(name.as_bytes()).expect(rt, "a value")
}

/// A world of one stripe with two entries, whose store has a=1.
fn opened_world(rt: &impl Abort, alloc: Global) -> World {
    let mut world = World::new(alloc, &config(1, 2, 100)).expect(rt, "a world");
    stores_a(rt, &mut world);
    world
}

/// Asserts that nothing has happened in the world, and gives its store a=1.
fn stores_a(rt: &impl Abort, world: &mut World) {
    let (a, one) = (key_of(rt, "a"), value_of(rt, "1"));
    assert!(rt; world.is_fresh(), "nothing has happened");
    world.set(&a, &one).expect(rt, "memory");
}

/// The key of a step, or the key that is evicted.
fn key_at(event: &Event) -> Key {
    match event {
        Event::Step { key, .. } => *key,
        Event::Evict { key, .. } => *key,
    }
}

/// Whether the only entry is a, with this value.
fn is_a_alone(rt: &impl Abort, entries: &[(Key, Value)], name: &str) -> bool {
    let wanted = [(key_of(rt, "a"), value_of(rt, name))];
    entries == wanted.as_slice()
}

/// Asserts that an audit shows these values of a, that a differs or no key does, and this number of events.
fn audits(
    rt: &impl Abort,
    alloc: Global,
    world: &World,
    cached: &str,
    stored: &str,
    events: usize,
) {
    let audit = world.audit(alloc).expect(rt, "memory");
    assert!(rt; is_a_alone(rt, &audit.cache, cached), "the cache");
    assert!(rt; is_a_alone(rt, &audit.store, stored), "the store");
    assert!(rt; audit.events == events && audit.is_legal, "the history");
}

/// Asserts that an audit lists these keys, each with a space after it.
fn differs(rt: &impl Abort, alloc: Global, world: &World, names: &str) {
    let audit = world.audit(alloc).expect(rt, "memory");
    let mut listed = Vec::new(alloc);
    for key in &audit.differing {
        put_key(rt, &mut listed, key);
    }
    assert!(rt; listed.as_slice() == names.as_bytes(), "what differs");
}

/// Appends a key, and a space.
fn put_key(rt: &impl Abort, names: &mut Vec<u8>, key: &Key) {
    names.extend_from_slice(key.bytes()).expect(rt, "memory");
    names.push(b' ').expect(rt, "memory");
}

// 1. Shapes.

/// Asserts that a world of this shape is refused for this field.
fn is_refused(rt: &impl Abort, alloc: Global, config: &Config, field: Field) {
    match World::new(alloc, config) {
        Ok(world) => {
            world.close();
            panic!(rt; "a world of this shape is made");
        }
        Err(refusal) => assert!(rt; refusal == Refusal::BadConfig(field), "{refusal:?}"),
    }
}

#[test]
fn refuses_a_shape_beyond_the_limits(rt: HostRuntime) {
    let alloc = rt.alloc();
    is_refused(&rt, alloc, &config(0, 1, 16), Field::Stripes);
    is_refused(&rt, alloc, &config(65, 1, 16), Field::Stripes);
    is_refused(&rt, alloc, &config(1, 0, 16), Field::Capacity);
    is_refused(&rt, alloc, &config(1, 4097, 16), Field::Capacity);
    is_refused(&rt, alloc, &config(1, 1, 15), Field::History);
    is_refused(&rt, alloc, &config(1, 1, 65537), Field::History);
    let world = World::new(alloc, &config(1, 1, 16)).expect(&rt, "a world");
    world.close();
}

// 2. Lists of events.

/// The last event of the list doesn't fit, and counts as played.
#[test]
fn plays_a_list_in_its_order(rt: HostRuntime) {
    let alloc = rt.alloc();
    let mut world = opened_world(&rt, alloc);
    let a = key_of(&rt, "a");
    let begin = event_of(&rt, alloc, "get", "1", a);
    let start = event_of(&rt, alloc, "start", "1", a);
    let commit = event_of(&rt, alloc, "commit", "1", a);
    let mut seen = Vec::new(alloc);
    world
        .play(&[begin, start, commit], &mut seen)
        .expect(&rt, "memory");
    assert!(rt;
        matches!(
            seen.as_slice(),
            [
                Shown {
                    outcome: Outcome::Begun,
                    ..
                },
                Shown {
                    outcome: Outcome::Loads,
                    ..
                },
                Shown {
                    outcome: Outcome::Unfit,
                    ..
                },
            ]
        ),
        "what is shown"
    );
    assert!(rt; world.played() == 3, "all are played");
    world.close();
}

// 3. A put whose writer has changed the store and hasn't returned.

/// Up to that change, after which session 2 gets the old value.
const PUT_CHANGED: &str = "\
get 1 a: begun; start leave
start 1 a: loads; read say withdraw
read 1 a: reads; commit
commit 1 a: stepped; none
put 101 a: begun; start leave
start 101 a: asks; change report withdraw
change 101 a: changed; change report
get 102 a: begun; start leave
start 102 a: stepped; none
";

/// From the writer's return, up to a get of the new value.
const PUT_COMMITTED: &str = "\
report 101 a: done; commit
commit 101 a: stepped; none
get 202 a: begun; start leave
start 202 a: stepped; none
";

/// Asserts that call 101 is under way, and call 102 is over.
fn is_under_way(rt: &impl Abort, world: &World) {
    let open = world.open_call(101).expect(rt, "call 101 is under way");
    let caller = open.caller();
    assert!(rt; caller.session == 1 && caller.call == 101);
    assert!(rt;
        open.op_at(&key_of(rt, "a")) == Some(&Op::Put(value_of(rt, "101"))),
        "it puts there"
    );
    assert!(rt;
        open.op_at(&key_of(rt, "b")).is_none(),
        "it does nothing elsewhere"
    );
    assert!(rt; world.open_call(102).is_none(), "call 102 is over");
}

/// Asserts that call 101 has a put at a, which is still open, and no operation at another key.
fn is_open_at_a_alone(rt: &impl Abort, world: &World) {
    let open = world.open_call(101).expect(rt, "call 101 is under way");
    let put = Op::Put(value_of(rt, "101"));
    assert!(rt;
        open.op_at(&key_of(rt, "a")).copied() == Some(put),
        "the put at a"
    );
    assert!(rt; open.op_at(&key_of(rt, "b")).is_none(), "nothing at b");
}

/// Asserts that call 101 has reserved a, and that the writer has changed the store and not returned.
fn is_reserved(rt: &impl Abort, world: &World) {
    let a = key_of(rt, "a");
    let part = world.part(101, &a).expect(rt, "a is reserved");
    assert!(rt; is_of_the_put(rt, &part.reservation), "it is the put");
    assert!(rt;
        part.progress.is_changed && !part.progress.out.write.is_given(),
        "the writer has changed the store"
    );
    assert!(rt; world.part(102, &a).is_none(), "call 102 is over");
}

/// Whether this is the reservation of the put by call 101.
fn is_of_the_put(rt: &impl Abort, reservation: &Reservation) -> bool {
    let value = value_of(rt, "101");
    let wanted = Reservation {
        caller: Caller {
            session: 1,
            call: 101,
        },
        key: key_of(rt, "a"),
        op: Op::Put(value),
        number: 1,
        first: First::Writer(Change::Write(value)),
    };
    *reservation == wanted
}

/// Asserts that session 1 has the last call but one under way.
fn is_busy_with_the_put(rt: &impl Abort, world: &World) {
    assert!(rt; world.is_busy(1) && !world.is_busy(2));
    assert!(rt; world.is_new(103) && !world.is_new(102) && !world.is_fresh());
}

#[test]
fn shows_a_put_after_its_commit(rt: HostRuntime) {
    let alloc = rt.alloc();
    let mut world = opened_world(&rt, alloc);
    plays(&rt, alloc, &mut world, PUT_CHANGED);
    is_under_way(&rt, &world);
    is_open_at_a_alone(&rt, &world);
    is_reserved(&rt, &world);
    is_busy_with_the_put(&rt, &world);
    audits(&rt, alloc, &world, "1", "101", 2);
    differs(&rt, alloc, &world, "");
    plays(&rt, alloc, &mut world, PUT_COMMITTED);
    audits(&rt, alloc, &world, "101", "101", 4);
    world.close();
}

// 4. The order of all events.

/// An event with another reply, if it is a step.
fn answered_otherwise(event: Event) -> Event {
    match event {
        Event::Step {
            caller,
            op,
            key,
            out,
            shared_with,
            reply: _,
        } => Event::Step {
            caller,
            op,
            key,
            out,
            shared_with,
            reply: Reply::Value(None),
        },
        Event::Evict { key, cause } => Event::Evict { key, cause },
    }
}

/// Whether this is a legal history of one stripe.
fn is_legal(rt: &impl Abort, alloc: Global, events: &[Event]) -> bool {
    legal(alloc, &config(1, 2, 100), &[], events).expect(rt, "memory")
}

/// The order is legal, and with another last reply it isn't.
#[test]
fn has_a_legal_order_of_a_put(rt: HostRuntime) {
    let alloc = rt.alloc();
    let mut world = opened_world(&rt, alloc);
    plays(&rt, alloc, &mut world, PUT_CHANGED);
    plays(&rt, alloc, &mut world, PUT_COMMITTED);
    let mut events = world.order(alloc).expect(&rt, "memory");
    world.close();
    assert!(rt; events.len() == 4 && is_legal(&rt, alloc, &events));
    let last = events.pop().expect(&rt, "an event");
    events.push(answered_otherwise(last)).expect(&rt, "memory");
    assert!(rt; !is_legal(&rt, alloc, &events), "a wrong reply");
}

/// Asserts that the order has events of these keys, each with a space after it.
fn is_in_order(rt: &impl Abort, alloc: Global, world: &World, names: &str) {
    let order = world.order(alloc).expect(rt, "memory");
    let mut found = Vec::new(alloc);
    for event in &order {
        put_key(rt, &mut found, &key_at(event));
    }
    assert!(rt; found.as_slice() == names.as_bytes(), "the order");
}

/// The keys are of the stripes 1, 2, 3 and 1, and the last one evicts the first. Call 1 begins before call 2, and has its step
/// after it.
const OVER_STRIPES: &str = "\
put 1 b: begun; start leave
put 2 a: begun; start leave
start 2 a: stepped; none
start 1 b: stepped; none
put 3 ab: begun; start leave
start 3 ab: stepped; none
put 4 e: begun; start leave
start 4 e: stepped; none
";

#[test]
fn has_one_order_over_its_stripes(rt: HostRuntime) {
    let alloc = rt.alloc();
    let config = Config {
        write_through: false,
        ..config(4, 1, 16)
    };
    let mut world = World::new(alloc, &config).expect(&rt, "a world");
    plays(&rt, alloc, &mut world, OVER_STRIPES);
    is_in_order(&rt, alloc, &world, "a b ab a e ");
    world.close();
}

// 5. A world that is restarted.

/// Asserts that the world has no entry, nor its store, and that nothing has happened.
fn is_new(rt: &impl Abort, alloc: Global, world: &World) {
    let audit = world.audit(alloc).expect(rt, "memory");
    assert!(rt;
        audit.cache.is_empty() && audit.store.is_empty(),
        "no entry"
    );
    assert!(rt; audit.events == 0 && audit.is_legal, "no event");
    assert!(rt; world.played() == 0 && world.is_new(0), "no call");
    assert!(rt;
        !world.is_busy(1) && world.open_call(101).is_none(),
        "nothing is out"
    );
}

/// A world is restarted while its writer is out. The same calls then have the same outcomes, though their numbers were used.
#[test]
fn restarts_as_new(rt: HostRuntime) {
    let alloc = rt.alloc();
    let mut world = opened_world(&rt, alloc);
    plays(&rt, alloc, &mut world, PUT_CHANGED);
    world.restart();
    is_new(&rt, alloc, &world);
    stores_a(&rt, &mut world);
    plays(&rt, alloc, &mut world, PUT_CHANGED);
    is_reserved(&rt, &world);
    audits(&rt, alloc, &world, "1", "101", 2);
    plays(&rt, alloc, &mut world, PUT_COMMITTED);
    audits(&rt, alloc, &world, "101", "101", 4);
    world.close();
}
