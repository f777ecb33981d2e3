//! What calls leave in a stripe's history.
use super::answers::replied_as;
use super::*;
use jc_cache::ClosedStripe;
use jc_model::{Cause, Event, LoadAnswer};
use jc_stripe::Stripe;
use jc_types::Caller;
use std::alloc::AllocError;

/// The events of one stripe.
pub fn events(alloc: Global, stripe: &ClosedStripe) -> Result<Vec<Event>, AllocError> {
    let mut events = Vec::with_capacity(alloc, stripe.events_len())?;
    stripe.append_events(&mut events)?;
    Ok(events)
}

/// The events of a stripe are these steps, with a comma between two: of each its session, perhaps with the number of its call, its
/// key and its reply, and perhaps what was loaded, as in `0 a 1, 0#2 a - < -`; or `evict a`, the eviction of a key that was invalidated.
pub fn are_steps(rt: &impl Abort, alloc: Global, stripe: &ClosedStripe, steps: &str) {
    let events = events(alloc, stripe).expect(rt, "memory");
    are_events(rt, &events, steps);
}

/// The same of these events.
pub fn are_events(rt: &impl Abort, events: &[Event], steps: &str) {
    let mut texts = steps.split(", ");
    for event in events {
        is_step(rt, event, texts.next().unwrap_or("no step"));
    }
    is(rt, texts.next(), None);
}

/// The events of a stripe that is nobody else's.
pub fn events_of(rt: &impl Abort, alloc: Global, stripe: &Stripe) -> Vec<Event> {
    let count = stripe.events_len();
    let mut events = Vec::with_capacity(alloc, count).expect(rt, "memory");
    stripe
        .append_events(0, count, &mut events)
        .expect(rt, "memory");
    events
}

/// An event is the step, or the eviction, that a text says.
fn is_step(rt: &impl Abort, event: &Event, text: &str) {
    let (said, load) = match text.split_once(" < ") {
        Some((said, load)) => (said, Some(load)),
        None => (text, None),
    };
    let (who, said) = first_word(said);
    let (at, reply) = first_word(said);
    match event {
        Event::Step {
            caller,
            key: found,
            reply: replied,
            out,
            ..
        } => {
            is_caller(rt, caller, who);
            is(rt, *found, key(rt, at));
            is_at(rt, text, replied_as(*replied), answer_of(rt, reply));
            is_loaded(rt, out.load, load);
        }
        Event::Evict { key: found, cause } => {
            is_at(rt, text, who, "evict");
            is(rt, *found, key(rt, at));
            is(rt, *cause, Cause::Invalidated);
        }
    }
}

/// A session, and its call if the text says which.
fn is_caller(rt: &impl Abort, caller: &Caller, text: &str) {
    let (session, call) = text.split_once('#').unwrap_or((text, ""));
    is(rt, Some(caller.session), session.parse().ok());
    if !call.is_empty() {
        is(rt, Some(caller.call), call.parse().ok());
    }
}

/// A loader's answer, if a text says which: a dash if it wasn't asked.
fn is_loaded(rt: &impl Abort, found: LoadAnswer, text: Option<&str>) {
    match text {
        None => {}
        Some("-") => is(rt, found, LoadAnswer::NotAsked),
        Some(word) => is(rt, found, LoadAnswer::Found(value(rt, word))),
    }
}

/// A session that loads another value each time. The history says whose call each step is of, by its number, and what was loaded.
pub const LOADED: &str = "\
open 1 4 100 read
with first rises plain
get a = 1 | 0 0 0
remove a = true | 0 0 0
get a = 2 | 0 0 0
get a = 2 | 0 0 0
steps 0#1 a 1 < 1, 0#2 a true < -, 0#3 a 2 < 2, 0#4 a 2 < -
";
