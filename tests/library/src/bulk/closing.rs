//! The end of a cache: its histories are legal, and have the steps that its sessions have made. Lines say what there is then:
//!
//!     stripes 6 a=1, 6            how many events each stripe has, and which entries, the most recently used first
//!     number 2                    how many stripes there are
//!     shared 1                    how many steps of the second session in the first stripe share another session's load
//!     coherent                    what is cached is what the store has
//!     counts 0 1 0 1 0 0          as in the lines of a session
//!     stored a=1
use super::outside::{Outside, are_entries};
use super::*;
use crate::common::words::first_word;
use jc_cache::{Closed, ClosedStripe, Event};
use jc_model::legal;

/// How many steps a session has made, as it counts them itself.
#[derive(Clone, Copy, PartialEq, Eq, Debug)]
struct OwnSteps {
    session: u32,
    steps: u64,
}

/// How many steps each session has made.
fn own_of(rt: &impl Abort, alloc: Global, sessions: &[Session]) -> Vec<OwnSteps> {
    let mut own = Vec::new(alloc);
    for session in sessions {
        let one = OwnSteps {
            session: session.caller().session,
            steps: session.own(),
        };
        own.push(one).ok().expect(rt, "memory");
    }
    own
}

/// The events of one stripe.
fn events(rt: &impl Abort, alloc: Global, stripe: &ClosedStripe) -> Vec<Event> {
    let mut events = Vec::new(alloc);
    stripe.append_events(&mut events).expect(rt, "memory");
    events
}

/// How many of these events are steps of a session.
fn steps_in(events: &[Event], session: u32) -> u64 {
    let mut steps = 0u64;
    for event in events {
        if let Event::Step { caller, .. } = event {
            if caller.session == session {
                steps = steps.saturating_add(1);
            }
        }
    }
    steps
}

/// The stripes have as many steps of a session as it has made.
fn are_counted(rt: &impl Abort, alloc: Global, stripes: &[ClosedStripe], own: OwnSteps) {
    let mut steps = 0u64;
    for stripe in stripes {
        let events = events(rt, alloc, stripe);
        steps = steps.saturating_add(steps_in(&events, own.session));
    }
    is(rt, steps, own.steps);
}

/// The checker, which makes each step again, calls the stripe's events a legal history of a stripe that began empty.
fn is_legal(rt: &impl Abort, alloc: Global, config: &Config, stripe: &ClosedStripe) {
    let events = events(rt, alloc, stripe);
    assert!(rt; legal(alloc, config, &[], &events).expect(rt, "memory"));
}

/// Whether these stripes are of a cache that lived on: they tell the steps of their last generations alone.
fn live_on(stripes: &[ClosedStripe]) -> bool {
    stripes.iter().any(|stripe| stripe.lives())
}

/// The checker calls each history legal, and all of them have just these steps.
fn are_whole(
    rt: &impl Abort,
    alloc: Global,
    config: &Config,
    stripes: &[ClosedStripe],
    own: &[OwnSteps],
) {
    for stripe in stripes {
        is_legal(rt, alloc, config, stripe);
    }
    for one in own {
        are_counted(rt, alloc, stripes, *one);
    }
}

/// Ends a cache with all of its sessions. Each history is legal, as the cache says. If it doesn't live on, the checker says so, too,
/// and all histories have just the steps that the sessions have made.
pub fn closed(
    rt: &impl Abort,
    alloc: Global,
    owner: CacheOwner,
    sessions: Vec<Session>,
) -> Vec<ClosedStripe> {
    let own = own_of(rt, alloc, &sessions);
    let config = *owner.cache().config();
    let closed = owner.close(alloc, sessions).ok();
    let Closed {
        stripes,
        outside: _outside,
        seats: _seats,
        legal,
    } = closed.expect(rt, "a closed cache");
    assert!(rt; legal);
    if !live_on(&stripes) {
        are_whole(rt, alloc, &config, &stripes, &own);
    }
    stripes
}

/// The entries of one stripe, the most recently used first.
fn entries(rt: &impl Abort, alloc: Global, stripe: &ClosedStripe) -> Vec<(Key, Value)> {
    let mut entries = Vec::new(alloc);
    stripe.append_entries(&mut entries).expect(rt, "memory");
    entries
}

/// Each stripe has so many events, and these entries, the most recently used first: `6 a=1, 6` of two.
fn are_stripes(rt: &impl Abort, alloc: Global, stripes: &[ClosedStripe], wanted: &str) {
    let mut parts = wanted.split(", ");
    for stripe in stripes {
        let (count, pairs) = first_word(parts.next().expect(rt, wanted));
        is(rt, Some(stripe.events_len()), count.parse().ok());
        are_entries(rt, &entries(rt, alloc, stripe), pairs);
    }
    is(rt, parts.next(), None);
}

/// What is cached is what the store has.
fn are_coherent<R: Abort + Wait>(
    rt: &R,
    alloc: Global,
    outside: &Outside,
    stripes: &[ClosedStripe],
) {
    for stripe in stripes {
        for (key, value) in &entries(rt, alloc, stripe) {
            is(rt, outside.store.read(rt, key), Some(*value));
        }
    }
}

/// The steps of one session in a stripe that share another session's load.
fn shared_by(rt: &impl Abort, alloc: Global, stripe: &ClosedStripe, session: u32) -> u64 {
    let mut shared = 0u64;
    for event in &events(rt, alloc, stripe) {
        if is_shared_by(event, session) {
            shared = shared.saturating_add(1);
        }
    }
    shared
}

/// An event is a step of this session that shares another session's load.
fn is_shared_by(event: &Event, session: u32) -> bool {
    match event {
        Event::Step {
            caller,
            shared_with,
            ..
        } => caller.session == session && shared_with.is_some(),
        Event::Evict { .. } => false,
    }
}

/// What a line says is so.
fn is_so<R: Abort + Wait>(
    rt: &R,
    alloc: Global,
    outside: &Outside,
    stripes: &[ClosedStripe],
    line: &str,
) {
    let (word, rest) = first_word(line);
    match word {
        "stripes" => are_stripes(rt, alloc, stripes, rest),
        "number" => is(rt, Some(stripes.len()), rest.parse().ok()),
        "shared" => {
            let first = stripes.first().expect(rt, "a stripe");
            is(rt, Some(shared_by(rt, alloc, first, 1)), rest.parse().ok());
        }
        "coherent" => are_coherent(rt, alloc, outside, stripes),
        "counts" => outside.counted(rt, rest),
        "stored" => outside.holds(rt, alloc, rest),
        _ => panic!(rt; "no line {line}"),
    }
}

/// What each of these lines says is so. They have a `;` between.
pub fn are_so<R: Abort + Wait>(
    rt: &R,
    alloc: Global,
    outside: &Outside,
    stripes: &[ClosedStripe],
    text: &str,
) {
    for line in text.split_terminator(';') {
        is_so(rt, alloc, outside, stripes, line);
    }
}
