//! A call that takes the keys that are cached, event by event: a look at each stripe, in any order.
use super::courses::{plays, shows};
use super::{config, is_in_order, opened_world, put_key};
use jc_types::Config;
use jc_world::command::Command;
use jc_world::event::{Over, WorldEvent};
use jc_world::world::World;
use std::alloc::Global;
use std::process::Abort;

/// Call 9, of session 9, clears the cache.
fn clears(rt: &impl Abort, alloc: Global, world: &mut World) {
    let begin = WorldEvent::Call {
        call: 9,
        session: 9,
        command: Command::Clear,
    };
    shows(rt, alloc, world, begin, "begun", "the call");
}

/// Lets call 9 look at a stripe, and asserts that this is shown. Returns the call that is over with it, if one is.
fn looks(
    rt: &impl Abort,
    alloc: Global,
    world: &mut World,
    stripe: usize,
    word: &str,
) -> Option<Over> {
    let look = WorldEvent::Look { call: 9, stripe };
    shows(rt, alloc, world, look, word, "the look")
}

/// Whether call 9 is still to look at a stripe.
fn is_to_look(rt: &impl Abort, world: &World, stripe: usize) -> bool {
    world
        .open_call(9)
        .expect(rt, "the call is under way")
        .is_to_look(stripe)
}

/// Asserts that the open keys of call 9 are these, in this order, each with a space after it.
fn has_keys(rt: &impl Abort, alloc: Global, world: &World, names: &str) {
    let (mut keys, mut listed) = (Vec::new(alloc), Vec::new(alloc));
    let u = world.open_call(9).expect(rt, "the call is under way");
    u.put_open_keys(&mut keys).expect(rt, "memory");
    for key in &keys {
        put_key(rt, &mut listed, key);
    }
    assert!(rt; listed.as_slice() == names.as_bytes(), "its keys");
}

/// Asserts that call 9 is over by its keys, as was shown, and has met no fault and no refusal.
fn is_over(rt: &impl Abort, world: &World, shown: Option<Over>) {
    assert!(rt; !world.is_busy(9), "the call is over");
    let over = Over {
        call: 9,
        cause: None,
    };
    assert!(rt; shown == Some(over), "it has no cause");
}

/// A world of two stripes without loader and writer: b and d are of the first, a and c of the second.
fn two_stripes(rt: &impl Abort, alloc: Global) -> World {
    let config = Config {
        read_through: false,
        write_through: false,
        ..config(2, 4, 100)
    };
    World::new(alloc, &config).expect(rt, "a world")
}

/// Three entries.
const ENTRIES: &str = "\
put 1 d: begun; start leave
start 1 d: stepped; none
put 2 c: begun; start leave
start 2 c: stepped; none
put 3 b: begun; start leave
start 3 b: stepped; none
";

/// Between the looks the keys of the first stripe alone are the call's.
const FIRST_LOOK: &str = "\
start 9 c: unfit; leave
start 9 d: stepped; leave
start 9 d: unfit; leave
start 9 b: stepped; leave
";

/// After the last look the other key is, and the call is over with it.
const SECOND_LOOK: &str = "\
start 9 a: unfit; leave
start 9 c: stepped; none
";

#[test]
fn looks_at_each_stripe_once(rt: HostRuntime) {
    let alloc = rt.alloc();
    let mut world = two_stripes(&rt, alloc);
    plays(&rt, alloc, &mut world, ENTRIES);
    looks(&rt, alloc, &mut world, 0, "unfit");
    clears(&rt, alloc, &mut world);
    looks(&rt, alloc, &mut world, 2, "unfit");
    looks(&rt, alloc, &mut world, 0, "looked");
    looks(&rt, alloc, &mut world, 0, "unfit");
    assert!(rt; !is_to_look(&rt, &world, 0), "the first stripe");
    assert!(rt; is_to_look(&rt, &world, 1), "the second stripe");
    plays(&rt, alloc, &mut world, FIRST_LOOK);
    looks(&rt, alloc, &mut world, 1, "looked");
    assert!(rt; !is_to_look(&rt, &world, 1), "no stripe is left");
    looks(&rt, alloc, &mut world, 1, "unfit");
    let over = plays(&rt, alloc, &mut world, SECOND_LOOK);
    is_over(&rt, &world, over);
    is_in_order(&rt, alloc, &world, "d c b d b c ");
    world.close();
}

/// The keys of the stripe at which it has looked first are then before the others.
const ALL_KEYS: &str = "\
start 9 d: stepped; leave
start 9 c: stepped; leave
start 9 b: stepped; none
";

#[test]
fn looks_in_any_order(rt: HostRuntime) {
    let alloc = rt.alloc();
    let mut world = two_stripes(&rt, alloc);
    plays(&rt, alloc, &mut world, ENTRIES);
    clears(&rt, alloc, &mut world);
    looks(&rt, alloc, &mut world, 1, "looked");
    looks(&rt, alloc, &mut world, 1, "unfit");
    assert!(rt; is_to_look(&rt, &world, 0), "the first stripe is left");
    looks(&rt, alloc, &mut world, 0, "looked");
    looks(&rt, alloc, &mut world, 0, "unfit");
    has_keys(&rt, alloc, &world, "c b d ");
    let over = plays(&rt, alloc, &mut world, ALL_KEYS);
    is_over(&rt, &world, over);
    world.close();
}

/// On an empty cache the call is over with its last look.
#[test]
fn is_over_with_the_last_look_at_nothing(rt: HostRuntime) {
    let alloc = rt.alloc();
    let mut world = two_stripes(&rt, alloc);
    clears(&rt, alloc, &mut world);
    let over = looks(&rt, alloc, &mut world, 0, "looked");
    assert!(rt; world.is_busy(9) && over.is_none(), "a stripe is left");
    let over = looks(&rt, alloc, &mut world, 1, "looked");
    is_over(&rt, &world, over);
    world.close();
}

/// A key that another call has reserved is put off, and a key without an entry since the look is still cleared.
const PUT_OFF: &str = "\
put 10 a: begun; start leave
start 10 a: asks; change report withdraw
start 9 a: putoff; start leave
withdraw 10 a: withdrawn; start leave
leave 10 a: left; none
start 9 a: stepped; none
";

#[test]
fn puts_off_a_reserved_key(rt: HostRuntime) {
    let alloc = rt.alloc();
    let mut world = opened_world(&rt, alloc);
    plays(&rt, alloc, &mut world, LOADED);
    clears(&rt, alloc, &mut world);
    looks(&rt, alloc, &mut world, 0, "looked");
    let over = plays(&rt, alloc, &mut world, PUT_OFF);
    is_over(&rt, &world, over);
    is_in_order(&rt, alloc, &world, "a a ");
    world.close();
}

/// The entry of a.
const LOADED: &str = "\
get 7 a: begun; start leave
start 7 a: loads; read say withdraw
read 7 a: reads; commit
commit 7 a: stepped; none
";
