//! Snapshots: interleavings that lead to one essence have the same one, and those that differ in what still counts have different
//! ones.
use super::courses::{event_of, shown_of};
use super::{config, key_of, value_of};
use jc_snapshot::{Seen, Snapshot};
use jc_types::Config;
use jc_world::world::World;
use std::alloc::Global;
use std::process::Abort;

/// The snapshot of a world in which these events have happened: each line has an event's name, the number of its call and a key.
/// The store has a=1.
fn snapshot_after(
    rt: &impl Abort,
    alloc: Global,
    seen: &mut Seen,
    shape: &Config,
    lines: &str,
) -> Snapshot {
    let mut world = World::new(alloc, shape).expect(rt, "a world");
    world
        .set(&key_of(rt, "a"), &value_of(rt, "1"))
        .expect(rt, "memory");
    for line in lines.lines() {
        plays_line(rt, alloc, &mut world, line);
    }
    let snapshot = Snapshot::of(alloc, &world, seen).expect(rt, "memory");
    world.close();
    snapshot
}

fn plays_line(rt: &impl Abort, alloc: Global, world: &mut World, line: &str) {
    let (name, rest) = line.split_once(' ').expect(rt, "a name");
    let (number, key) = rest.split_once(' ').expect(rt, "a number");
    let event = event_of(rt, alloc, name, number, key_of(rt, key));
    assert!(rt; world.fits(&event), "{line}");
    drop(shown_of(rt, alloc, world, event));
}

/// Whether these two schedules lead to one snapshot, over one table.
fn meet(rt: &impl Abort, alloc: Global, shape: &Config, first: &str, second: &str) -> bool {
    let mut seen = Seen::new(alloc);
    let one = snapshot_after(rt, alloc, &mut seen, shape, first);
    let other = snapshot_after(rt, alloc, &mut seen, shape, second);
    assert!(rt; one != other || one.fingerprint() == other.fingerprint());
    one == other
}

// A put of a and a load of b, and which of the two is committed first.
const PUT_FIRST: &str =
    "put 1 a\nget 2 b\nstart 1 a\nstart 2 b\nread 2 b\nchange 1 a\nreport 1 a\ncommit 1 a\ncommit 2 b";

const GET_FIRST: &str =
    "put 1 a\nget 2 b\nstart 1 a\nstart 2 b\nchange 1 a\nreport 1 a\nread 2 b\ncommit 2 b\ncommit 1 a";

#[test]
fn interleavings_meet(rt: HostRuntime) {
    let alloc = rt.alloc();
    for stripes in 1..3 {
        assert!(rt; meet(&rt, alloc, &config(stripes, 4, 100), PUT_FIRST, GET_FIRST));
    }
}

// The entries were used in another order. Both have the same numbers of calls.
const USES_A_LAST: &str =
    "get 1 a\nstart 1 a\nread 1 a\ncommit 1 a\nput 2 b\nstart 2 b\nchange 2 b\nreport 2 b\ncommit 2 b\nget 3 a\nstart 3 a";

const USES_B_LAST: &str =
    "get 1 a\nstart 1 a\nread 1 a\ncommit 1 a\nput 2 b\nstart 2 b\nchange 2 b\nreport 2 b\ncommit 2 b\nget 3 b\nstart 3 b";

#[test]
fn the_order_of_use_counts(rt: HostRuntime) {
    let alloc = rt.alloc();
    assert!(rt; !meet(&rt, alloc, &config(1, 4, 100), USES_A_LAST, USES_B_LAST));
}

// One more event, and nothing else: the call leaves before or after its step.
const HAS_STEP: &str = "get 1 c\nstart 1 c\nread 1 c\ncommit 1 c";

const HAS_LEFT: &str = "get 1 c\nstart 1 c\nwithdraw 1 c\nleave 1 c";

#[test]
fn the_number_of_events_counts(rt: HostRuntime) {
    let alloc = rt.alloc();
    assert!(rt; !meet(&rt, alloc, &config(1, 4, 100), HAS_STEP, HAS_LEFT));
}

// A load that another call has joined is answered, and the answer waits.
const LOADS_ONE: &str = "get 1 a\nget 2 a\nstart 1 a\nstart 2 a\nread 1 a\ncommit 1 a";

const LOADS_NOTHING: &str = "get 1 a\nget 2 a\nstart 1 a\nstart 2 a\nsay 1 a\ncommit 1 a";

#[test]
fn what_a_joiner_is_answered_counts(rt: HostRuntime) {
    let alloc = rt.alloc();
    assert!(rt; !meet(&rt, alloc, &config(1, 4, 100), LOADS_ONE, LOADS_NOTHING));
    assert!(rt; meet(&rt, alloc, &config(1, 4, 100), LOADS_ONE, LOADS_ONE));
}
