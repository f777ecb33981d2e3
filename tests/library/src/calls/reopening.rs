//! A cache that is closed and opened again. A text begins with its shape and what its store has, as one of `scenes.rt`. Then come
//! calls of two sessions, and lines that close the cache and open it again in another shape, with what is dropped by that:
//!
//!     reopen 1 2 100 read drops a=1
//!
//! The new sessions bring the loaders and the writers of the former ones.
use super::desk::entries_of;
use super::histories::events;
use super::scenes::{Scene, shape_of};
use super::*;
use jc_cache::{Closed, ClosedStripe, ReopenFault, Reopened};
use jc_model::legal;
use jc_types::Field;

/// In the same shape nothing is dropped, and what was cached is found. The writer isn't asked for it, and the loader not again.
const SAME_SHAPE: &str = "\
open 2 2 100 read write
store z=9
put a 1 = ok | 0 1 0
s2 put b 2 = ok | 0 2 0
put c 3 = ok | 0 3 0
own 2
reopen 2 2 100 read write drops
own 0
get a = 1 | 0 3 0
s2 get b = 2 | 0 3 0
get z = 9 | 1 3 0
own 2
stored a=1 b=2 c=3 z=9
";

/// One stripe of two entries keeps what the first old stripe had, and of the second one what was used last. Then the least recently
/// used entry of the opening goes. What was dropped isn't written anywhere.
const OTHER_SHAPE: &str = "\
open 2 2 100
store z=9
put a 1 = ok | 0 0 0
s2 put b 2 = ok | 0 0 0
put c 3 = ok | 0 0 0
reopen 1 2 100 read drops a=1
put d 4 = ok | 0 0 0
get b = 2 | 0 0 0
get a = - | 1 0 0
stored z=9
";

/// More stripes, and back to one: the entries come from the stripes in their order.
const BACK_AND_FORTH: &str = "\
open 1 4 100
store z=9
put a 1 = ok | 0 0 0
put b 2 = ok | 0 0 0
put c 3 = ok | 0 0 0
put d 4 = ok | 0 0 0
reopen 4 1 100 drops
contains d = true | 0 0 0
reopen 1 3 100 drops c=3
contains d = true | 0 0 0
contains a = true | 0 0 0
contains b = true | 0 0 0
reopen 1 1 100 drops a=1 b=2
get d = 4 | 0 0 0
";

/// A history that is full when a key of its stripe is forgotten. No entry of that stripe is there after the cache is opened again, and
/// none is dropped; the other stripe's are there.
const FORGOTTEN: &str = "\
open 2 4 16
put b 2 = ok
put a 1 = ok
put c 3 = ok
get a = 1
get a = 1
get a = 1
get a = 1
get a = 1
get a = 1
get a = 1
get a = 1
get a = 1
get a = 1
get a = 1
get a = 1
get a = 1
get a = 1
invalidate a
contains a = HistoryFull
contains b = true
reopen 2 4 16 drops
contains a = false
contains c = false
contains b = true
get a = -
put a 4 = ok
reopen 1 4 16 drops
contains c = false
get a = 4
get b = 2
";

/// Generations one after the other, in one shape, each with a step of each session.
const GENERATION: &str = "\
get a = 1 | 1 0 0
s2 get a = 1 | 1 0 0
own 1
s2 own 1
";

/// Ends a cache with all of its sessions.
fn closed(rt: &impl Abort, alloc: Global, stage: Stage) -> Closed {
    let (owner, sessions) = stage.into_parts();
    owner
        .close(alloc, sessions)
        .ok()
        .expect(rt, "a closed cache")
}

/// Opens a closed cache again in this shape, with sessions that bring what the former ones brought. These entries are dropped.
fn opened_again(
    rt: &impl Abort,
    alloc: Global,
    closed: Closed,
    shape: &Config,
    dropped: &str,
) -> Stage {
    let reopened = CacheOwner::reopen(alloc, closed, shape).ok();
    let Reopened {
        owner,
        dropped: rest,
        outside,
    } = reopened.expect(rt, "a cache");
    let wanted = entries_of(rt, alloc, dropped);
    assert!(rt; rest.as_slice() == wanted.as_slice(), "dropped");
    let mut stage = Stage::of(alloc, owner);
    for brought in outside {
        stage.enter(rt, alloc, brought.loader, brought.writer);
    }
    stage
}

/// The shape that a line says in which a cache is opened again, and what is dropped by that.
fn reopening_of<'a>(rt: &impl Abort, line: &'a str) -> (Config, &'a str) {
    let (shape, dropped) = line.split_once(" drops").expect(rt, "a line that drops");
    (shape_of(rt, shape), dropped.trim_start())
}

/// A stage with two sessions.
macro_rules! two_of {
    ($rt:expr, $desk:expr, $scene:expr) => {{
        let mut stage = Stage::new(&$rt, $rt.alloc(), &$scene.shape);
        enter!($rt, stage, $desk, Manners::PLAIN);
        enter!($rt, stage, $desk, Manners::PLAIN);
        stage
    }};
}

#[test]
fn opens_again(rt: HostRuntime) {
    let alloc = rt.alloc();
    for text in [SAME_SHAPE, OTHER_SHAPE, BACK_AND_FORTH, FORGOTTEN] {
        let scene = Scene::of(&rt, text);
        let desk = Desk::of(&rt, alloc, scene.stored);
        let mut stage = two_of!(rt, desk, scene);
        for line in scene.lines.split_terminator('\n') {
            if !line.starts_with("reopen ") {
                stage.plays(&rt, alloc, &desk, line);
                continue;
            }
            let (shape, dropped) = reopening_of(&rt, line);
            let closed = closed(&rt, alloc, stage);
            stage = opened_again(&rt, alloc, closed, &shape, dropped);
        }
        let _end = closed(&rt, alloc, stage);
    }
}

#[test]
fn opens_ten_times(rt: HostRuntime) {
    let alloc = rt.alloc();
    let scene = Scene::of(&rt, "open 1 4 100 read write\n");
    let desk = Desk::of(&rt, alloc, scene.stored);
    let mut stage = two_of!(rt, desk, scene);
    for _ in 0..10 {
        stage.plays(&rt, alloc, &desk, GENERATION);
        let closed = closed(&rt, alloc, stage);
        stage = opened_again(&rt, alloc, closed, &scene.shape, "");
    }
    let _end = closed(&rt, alloc, stage);
}

/// What a stripe has cached.
fn entries(rt: &impl Abort, alloc: Global, stripe: &ClosedStripe) -> Vec<(Key, Value)> {
    let mut entries = Vec::new(alloc);
    stripe.append_entries(&mut entries).expect(rt, "memory");
    entries
}

/// The history of a stripe that was opened again is legal from what it opened with, and not from nothing: its first step finds an
/// entry of the opening.
#[test]
fn is_legal_from_its_opening(rt: HostRuntime) {
    let alloc = rt.alloc();
    let scene = Scene::of(&rt, "open 1 4 100\nput a 1 = ok | 0 0 0\n");
    let desk = Desk::of(&rt, alloc, scene.stored);
    let mut stage = two_of!(rt, desk, scene);
    stage.plays(&rt, alloc, &desk, scene.lines);
    let first = closed(&rt, alloc, stage);
    let opening = entries(&rt, alloc, first.stripes.first().expect(&rt, "a stripe"));
    let mut stage = opened_again(&rt, alloc, first, &scene.shape, "");
    stage.plays(&rt, alloc, &desk, "get a = 1 | 0 0 0\n");
    let second = closed(&rt, alloc, stage);
    let events = events(alloc, second.stripes.first().expect(&rt, "a stripe"));
    let events = events.expect(&rt, "memory");
    is(&rt, legal(alloc, &scene.shape, &opening, &events), Ok(true));
    is(&rt, legal(alloc, &scene.shape, &[], &events), Ok(false));
}

/// A closed cache isn't opened again, and comes back as it was.
fn stays_closed(
    rt: &impl Abort,
    alloc: Global,
    closed: Closed,
    shape: &Config,
    why: Refusal,
) -> Closed {
    let (stripes, brought) = (closed.stripes.len(), closed.outside.len());
    let fault = CacheOwner::reopen(alloc, closed, shape).err();
    let ReopenFault { refusal, closed } = fault.expect(rt, "a refusal");
    is(rt, refusal, why);
    is(
        rt,
        (closed.stripes.len(), closed.outside.len()),
        (stripes, brought),
    );
    closed
}

/// Stripes of two caches in one list may have a key twice. A shape out of its limits is told first.
#[test]
fn refuses_to_open_again(rt: HostRuntime) {
    let alloc = rt.alloc();
    let scene = Scene::of(&rt, "open 1 4 100\nput a 1 = ok | 0 0 0\n");
    let desk = Desk::of(&rt, alloc, scene.stored);
    let (mut first, mut second) = (two_of!(rt, desk, scene), two_of!(rt, desk, scene));
    first.plays(&rt, alloc, &desk, scene.lines);
    second.plays(&rt, alloc, &desk, scene.lines);
    let mut first = closed(&rt, alloc, first);
    let mut second = closed(&rt, alloc, second);
    let stripe = second.stripes.pop().expect(&rt, "a stripe");
    first.stripes.push(stripe).ok().expect(&rt, "memory");
    let bad = Config {
        stripes: 0,
        ..scene.shape
    };
    let why = Refusal::BadConfig(Field::Stripes);
    let first = stays_closed(&rt, alloc, first, &bad, why);
    let why = Refusal::RepeatedKey;
    let first = stays_closed(&rt, alloc, first, &scene.shape, why);
    is(&rt, first.stripes.first().map(|s| s.events_len()), Some(1));
}

/// One stripe of two entries, whose history is full when its keys are forgotten.
const ALL_FORGOTTEN: &str = "\
open 1 4 16
put a 1 = ok
put b 2 = ok
get a = 1
get a = 1
get a = 1
get a = 1
get a = 1
get a = 1
get a = 1
get a = 1
get a = 1
get a = 1
get a = 1
get a = 1
get a = 1
get a = 1
invalidateall
";

/// A key that is cached in stripes of two caches isn't there twice, if one of them has forgotten it.
#[test]
fn opens_with_a_key_that_was_forgotten_once(rt: HostRuntime) {
    let alloc = rt.alloc();
    let scene = Scene::of(&rt, ALL_FORGOTTEN);
    let desk = Desk::of(&rt, alloc, scene.stored);
    let (mut first, mut second) = (two_of!(rt, desk, scene), two_of!(rt, desk, scene));
    first.plays(&rt, alloc, &desk, scene.lines);
    second.plays(&rt, alloc, &desk, "put a 5 = ok\n");
    let mut first = closed(&rt, alloc, first);
    let mut second = closed(&rt, alloc, second);
    let stripe = second.stripes.pop().expect(&rt, "a stripe");
    first.stripes.push(stripe).ok().expect(&rt, "memory");
    let shut = |place| first
        .stripes
        .get(place)
        .map(|it: &ClosedStripe| it.is_shut());
    is(&rt, (shut(0), shut(1)), (Some(true), Some(false)));
    let mut stage = opened_again(&rt, alloc, first, &scene.shape, "");
    stage.plays(&rt, alloc, &desk, "get a = 5\ncontains b = false\n");
    let _end = closed(&rt, alloc, stage);
}
