//! The end of a cache: what it is refused for, and what the histories of a closed cache are.
use super::histories::events;
use super::*;
use jc_cache::{Closed, ClosedStripe};
use jc_model::{Event, legal};

/// Counts the steps of each session in a history. Of each session the numbers of its calls rise.
fn count_steps(rt: &impl Abort, events: &[Event], last: &mut [u64], counts: &mut [u64]) {
    for event in events {
        let Event::Step { caller, .. } = event else {
            continue;
        };
        let at = caller.session as usize;
        assert!(rt; at < last.len() && at < counts.len());
        assert!(rt; last[at] < caller.call);
        last[at] = caller.call;
        counts[at] = counts[at].wrapping_add(1);
    }
}

/// Counts the steps of each session in the histories of a closed cache.
fn count_all(rt: &impl Abort, alloc: Global, stripes: &[ClosedStripe], counts: &mut [u64]) {
    for stripe in stripes {
        let mut last = vec![in alloc; 0u64; counts.len()].expect(rt, "memory");
        let events = events(alloc, stripe).expect(rt, "memory");
        count_steps(rt, &events, last.as_mut_slice(), counts);
    }
}

/// How many steps each session has made, by the sessions' numbers.
fn own_of(rt: &impl Abort, alloc: Global, sessions: &[Session]) -> Vec<u64> {
    let mut own = vec![in alloc; 0u64; sessions.len()].expect(rt, "memory");
    for session in sessions {
        let at = session.caller().session as usize;
        assert!(rt; at < own.len());
        own[at] = session.own();
    }
    own
}

/// The checker calls the stripe's events a legal history of a stripe that began empty.
fn is_legal(rt: &impl Abort, alloc: Global, config: &Config, stripe: &ClosedStripe) {
    let events = events(alloc, stripe).expect(rt, "memory");
    assert!(rt; legal(alloc, config, &[], &events).expect(rt, "memory"));
}

/// The histories of a closed cache have the steps that the sessions have made, those of each session in the order of its calls, and
/// no others.
fn are_counted(rt: &impl Abort, alloc: Global, stripes: &[ClosedStripe], own: &[u64]) {
    let mut counts = vec![in alloc; 0u64; own.len()].expect(rt, "memory");
    count_all(rt, alloc, stripes, counts.as_mut_slice());
    assert!(rt; counts.as_slice() == own);
}

/// The keys of a cache's first stripe that have an entry, as its first session sees them.
fn cached<R: Abort + Wait>(
    rt: &R,
    alloc: Global,
    cache: &Cache,
    sessions: &mut Vec<Session>,
) -> Vec<Key> {
    let config = *cache.config();
    assert!(rt; config.stripes > 0);
    assert!(rt; 0 < sessions.len(), "no session");
    let mut keys = Vec::with_capacity(alloc, config.capacity).expect(rt, "memory");
    cache.look(rt, &mut sessions[0], 0, &mut keys);
    keys
}

/// A closed stripe has entries of these keys, which rise, and of no others.
fn has_keys(rt: &impl Abort, alloc: Global, stripe: &ClosedStripe, keys: &[Key]) {
    let mut entries = Vec::new(alloc);
    stripe.append_entries(&mut entries).expect(rt, "memory");
    is(rt, entries.len(), keys.len());
    for (key, _value) in &entries {
        assert!(rt; keys.contains(key));
    }
    assert!(rt; keys.is_sorted());
}

/// Whether these stripes are of a cache that lived on: they tell the steps of their last generations alone.
pub fn live_on(stripes: &[ClosedStripe]) -> bool {
    stripes.iter().any(|stripe| stripe.lives())
}

/// The checker calls each history legal, and all of them have just these steps.
fn are_whole(
    rt: &impl Abort,
    alloc: Global,
    config: &Config,
    stripes: &[ClosedStripe],
    own: &[u64],
) {
    for stripe in stripes {
        is_legal(rt, alloc, config, stripe);
    }
    are_counted(rt, alloc, stripes, own);
}

/// Ends a cache with all of its sessions. Its stripes have legal histories, as the cache says. If it doesn't live on, they are of
/// just the steps that the sessions have made, and the checker says so, too.
pub fn closed<R: Abort + Wait>(
    rt: &R,
    alloc: Global,
    owner: CacheOwner,
    sessions: Vec<Session>,
) -> Vec<ClosedStripe> {
    let mut sessions = sessions;
    let own = own_of(rt, alloc, &sessions);
    let keys = cached(rt, alloc, owner.cache(), &mut sessions);
    let config = *owner.cache().config();
    let closed = owner.close(alloc, sessions).ok();
    let Closed {
        stripes,
        outside: _outside,
        seats: _seats,
        legal,
    } = closed.expect(rt, "a closed cache");
    assert!(rt; legal);
    if !live_on(&stripes) {
        are_whole(rt, alloc, &config, &stripes, &own);
    }
    has_keys(rt, alloc, stripes.first().expect(rt, "a stripe"), &keys);
    stripes
}

/// Two sessions, each with its loader and its writer, see what the other one has put. A cache isn't closed without all of its
/// sessions: it comes back with those that were handed in, and works as before.
pub const REOPENED: &str = "\
open 1 4 100 read write
get a = 1 | 1 0 0
put b 2 = ok | 1 1 0
own 2
s2 get b = 2 | 1 1 0
s2 remove a = true | 1 1 1
s2 get a = - | 2 1 1
s2 own 3
reopen
get a = - | 3 1 1
s2 get b = 2 | 3 1 1
stored b=2
own 3
steps 0 a 1, 0 b ok, 1 b 2, 1 a true, 1 a -, 0 a -, 1 b 2
";
