//! A cache that lives on: many more calls than its histories have places for, by four sessions, each on a thread of its own.
use super::lines::statistics;
use super::*;
use jc_cache::{Closed, Reopened};

/// The least room that a history may have.
const HISTORY: usize = 16;

/// Each call is one step, in whatever generation.
const ONCE: &str = "\
random
own 300
s2 own 300
s3 own 300
s4 own 300
";

/// The same after it was opened again.
const TWICE: &str = "\
random
random
own 600
s2 own 600
s3 own 600
s4 own 600
";

/// The loader of the first session waits while the second one makes more calls than a history has room for.
const WAITS: &str = "\
beside get a = 1 / await; put b 2 = ok; \
get b = 2; get b = 2; get b = 2; get b = 2; get b = 2; get b = 2; get b = 2; get b = 2; get b = 2; get b = 2; \
get b = 2; get b = 2; get b = 2; get b = 2; get b = 2; get b = 2; get b = 2; get b = 2; get b = 2; get b = 2; raise
get a = 1 | 1 1 0
own 2
s2 own 21
";

/// Fourteen steps fill a history of 16 places, which then has fewer than three left. A try ends it, and is made on the next. What the
/// steps of both generations and of both sessions count is known to each session.
const COUNTED: &str = "\
get a = 1 | 1 0 0
get a = 1
get a = 1
get a = 1
get a = 1
get a = 1
get a = 1
get a = 1
get a = 1
get a = 1
get a = 1
get a = 1
put b 2 = ok
counts 11 1 1 0 0
s2 get a = 1
s2 counts 12 1 1 0 0
tryget b = 2
trycontains b = true
s2 getremove b = 2
remove c = false
removeif a 9 = false
removeif c 9 = false
counts 15 2 1 1 0
s2 counts 15 2 1 1 0
own 18
s2 own 2
";

/// A session ends generations that aren't full, and is given their events. There is none to end where nothing has happened.
const ENDED: &str = "\
ends 0 -
put a 1 = ok
get a = 1
ends 2 0
get a = 1
s2 ends 1 1
ends 0 -
counts 2 0 1 0 0
own 3
";

/// Fourteen steps fill a history of 16 places. An invalidation ends its generation first, and then has a place; so has one of all keys.
const FORGOTTEN: &str = "\
get a = 1 | 1 0 0
get a = 1
get a = 1
get a = 1
get a = 1
get a = 1
get a = 1
get a = 1
get a = 1
get a = 1
get a = 1
get a = 1
put b 2 = ok
get b = 2
invalidate a
get b = 2 | 1 1 0
get a = 1 | 2 1 0
invalidateall
get b = 2 | 3 1 0
get a = 1 | 4 1 0
get a = 1
get a = 1
get a = 1
get a = 1
get a = 1
get a = 1
get a = 1
invalidateall
get a = 1 | 5 1 0
counts 20 5 1 0 0
";

/// What they count in the end, in the words of a line.
const IN_ALL: &str = "15 2 1 1 0";

/// Four sessions.
macro_rules! four_of {
    ($rt:expr, $stage:expr, $desk:expr) => {{
        enter!($rt, $stage, $desk, Manners::PLAIN);
        enter!($rt, $stage, $desk, Manners::PLAIN);
        enter!($rt, $stage, $desk, Manners::PLAIN);
        enter!($rt, $stage, $desk, Manners::PLAIN);
    }};
}

/// Ends a cache with all of its sessions. Each history is short, and each entry is the store's.
fn closed<R: Abort + Wait>(rt: &R, alloc: Global, desk: &Desk, stage: Stage) -> Closed {
    let (owner, sessions) = stage.into_parts();
    let closed = owner.close(alloc, sessions).ok();
    let closed = closed.expect(rt, "a closed cache");
    for stripe in &closed.stripes {
        assert!(rt; stripe.lives() && stripe.events_len() <= HISTORY);
        desk.has_entries_of(rt, alloc, stripe);
    }
    closed
}

#[test]
fn no_history_is_ever_full(rt: HostRuntime) {
    let alloc = rt.alloc();
    let shape = Config {
        stripes: 2,
        capacity: 3,
        history: HISTORY,
        read_through: true,
        write_through: true,
    };
    let desk = Desk::of(&rt, alloc, "");
    let owner = CacheOwner::living(alloc, &shape)
        .ok()
        .expect(&rt, "a cache");
    let mut stage = Stage::of(alloc, owner);
    four_of!(rt, stage, desk);
    stage.plays(&rt, alloc, &desk, ONCE);
    let end = closed(&rt, alloc, &desk, stage);
    let reopened = CacheOwner::reopen(alloc, end, &shape).ok();
    let Reopened { owner, .. } = reopened.expect(&rt, "a cache");
    let mut stage = Stage::of(alloc, owner);
    four_of!(rt, stage, desk);
    stage.plays(&rt, alloc, &desk, TWICE);
    let _end = closed(&rt, alloc, &desk, stage);
}

#[test]
fn counts_the_steps_of_all_generations(rt: HostRuntime) {
    let alloc = rt.alloc();
    let desk = Desk::of(&rt, alloc, "a=1");
    let owner = CacheOwner::living(alloc, &config(HISTORY, true, true))
        .ok()
        .expect(&rt, "a cache");
    let mut stage = Stage::of(alloc, owner);
    enter!(rt, stage, desk, Manners::PLAIN);
    enter!(rt, stage, desk, Manners::PLAIN);
    stage.plays(&rt, alloc, &desk, COUNTED);
    let end = closed(&rt, alloc, &desk, stage);
    let first = end.stripes.first().expect(&rt, "a stripe");
    is(&rt, first.generations_ended(), 1);
    is(&rt, first.statistics(), statistics(&rt, IN_ALL));
}

#[test]
fn invalidates_on_a_full_history(rt: HostRuntime) {
    let alloc = rt.alloc();
    let desk = Desk::of(&rt, alloc, "a=1");
    let owner = CacheOwner::living(alloc, &config(HISTORY, true, true))
        .ok()
        .expect(&rt, "a cache");
    let mut stage = Stage::of(alloc, owner);
    enter!(rt, stage, desk, Manners::PLAIN);
    stage.plays(&rt, alloc, &desk, FORGOTTEN);
    let end = closed(&rt, alloc, &desk, stage);
    let first = end.stripes.first().expect(&rt, "a stripe");
    is(&rt, first.generations_ended(), 2);
}

#[test]
fn a_session_ends_generations(rt: HostRuntime) {
    let alloc = rt.alloc();
    let desk = Desk::of(&rt, alloc, "");
    let owner = CacheOwner::living(alloc, &config(HISTORY, true, true))
        .ok()
        .expect(&rt, "a cache");
    let mut stage = Stage::of(alloc, owner);
    enter!(rt, stage, desk, Manners::PLAIN);
    enter!(rt, stage, desk, Manners::PLAIN);
    stage.plays(&rt, alloc, &desk, ENDED);
    let end = closed(&rt, alloc, &desk, stage);
    let first = end.stripes.first().expect(&rt, "a stripe");
    is(&rt, first.generations_ended(), 2);
    is(&rt, first.events_len(), 0);
}

#[test]
fn a_load_outlives_its_generation(rt: HostRuntime) {
    let alloc = rt.alloc();
    let desk = Desk::of(&rt, alloc, "a=1");
    let owner = CacheOwner::living(alloc, &config(HISTORY, true, true))
        .ok()
        .expect(&rt, "a cache");
    let mut stage = Stage::of(alloc, owner);
    enter!(
        rt,
        stage,
        desk,
        Manners {
            loader: Manner::Waits,
            writer: Manner::Plain,
        }
    );
    enter!(rt, stage, desk, Manners::PLAIN);
    stage.plays(&rt, alloc, &desk, WAITS);
    let end = closed(&rt, alloc, &desk, stage);
    let first = end.stripes.first().expect(&rt, "a stripe");
    is(&rt, first.generations_ended(), 1);
}
