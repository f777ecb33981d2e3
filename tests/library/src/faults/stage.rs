//! A cache, and sessions that play a tour on it beside each other, each on a thread of its own.
use super::calls::{Ended, call};
use super::outside::Outside;
use super::words::Line;
use super::*;
use crate::common::listening::Hearing;
use crate::common::{increment, push};
use jc_cache::{Closed, ClosedStripe, Event};
use jc_loadall::load_all;
use jc_model::legal;
use std::thread;
use std::thread::Threads;

/// Two stripes, on which nothing is evicted. Both options are on.
const SHAPE: Config = Config {
    stripes: 2,
    capacity: 64,
    history: 300,
    read_through: true,
    write_through: true,
};

/// Keys of three pieces.
const MANY: &str = "\
loadall a b c d e f k01 k02 k03 k04 k05 k06 k07 k08 k09 k10 k11 k12 k13 k14 k15 k16 k17 k18 k19 k20 k21 k22 k23 k24 k25 k26 k27 \
k28 k29 k30 k31 k32 k33 k34";

/// What a session brings.
#[derive(Drop)]
pub struct Brought {
    pub loader: Loader,
    pub writer: Writer,
}

/// Adds what one more session brings.
pub fn bring(rt: &impl Abort, brought: &mut Vec<Brought>, loader: Loader, writer: Writer) {
    brought
        .push(Brought { loader, writer })
        .ok()
        .expect(rt, "memory");
}

/// One more session.
fn enter(
    rt: &impl Abort,
    alloc: Global,
    owner: &mut CacheOwner,
    sessions: &mut Vec<Session>,
    brought: Brought,
) {
    let Brought { loader, writer } = brought;
    let Ok(session) = owner.session(alloc, Some(loader), Some(writer)) else {
        panic!(rt; "no session");
    };
    push(rt, sessions, session);
}

/// A session for each of those that bring a loader and a writer.
pub fn entered(
    rt: &impl Abort,
    alloc: Global,
    owner: &mut CacheOwner,
    brought: Vec<Brought>,
) -> Vec<Session> {
    let mut sessions = Vec::new(alloc);
    for one in brought {
        enter(rt, alloc, owner, &mut sessions, one);
    }
    sessions
}

/// Makes the calls of these lines by one session. Each fails just where its loader or its writer does.
fn play<R: Abort + Wait>(
    rt: &R,
    alloc: Global,
    outside: &Outside,
    cache: &Cache,
    session: &mut Session,
    processor: &mut Processor,
    lines: &[&str],
    who: usize,
) {
    for text in lines {
        let line = Line::of(rt, alloc, text);
        let ended = call(rt, alloc, cache, session, processor, &line);
        outside.explains(rt, alloc, who, &line, &ended);
    }
}

/// Makes the calls of these lines by each session, beside each other.
fn play_beside<R: Abort + Wait + Threads + Sync>(
    rt: &R,
    alloc: Global,
    outside: &Outside,
    cache: &Cache,
    sessions: &mut Vec<Session>,
    lines: &[&str],
) {
    let threads = sessions.len();
    assert!(rt; threads > 0, "no session");
    thread::for_each_mut(
        rt,
        sessions.as_mut_slice(),
        threads,
        &|who, session: &mut Session| {
            let mut processor = increment(rt, alloc);
            play(
                rt,
                alloc,
                outside,
                cache,
                session,
                &mut processor,
                lines,
                who,
            );
        },
    );
}

/// Loads many keys by all sessions together.
fn load_together<R: Abort + Wait + Threads + Sync>(
    rt: &R,
    alloc: Global,
    outside: &Outside,
    cache: &Cache,
    sessions: &mut Vec<Session>,
) {
    assert!(rt; sessions.len() > 0, "no session");
    let line = Line::of(rt, alloc, MANY);
    let hearing = Hearing::new(rt, alloc);
    let mut listener = hearing.listener(rt, alloc);
    let all = sessions.as_mut_slice();
    let loaded = load_all(alloc, rt, cache, all, &line.keys, false, &mut listener);
    let ended = Ended::of(alloc, loaded);
    hearing.told_once(rt, ended.cause.is_none());
    outside.explains_all(rt, alloc, &line.keys, &ended);
}

/// A closed stripe has a legal history of a stripe that began empty, and its entries are those of the store.
fn is_sound<R: Abort + Wait>(rt: &R, alloc: Global, outside: &Outside, stripe: &ClosedStripe) {
    let mut events: Vec<Event> = Vec::new(alloc);
    stripe.append_events(&mut events).ok().expect(rt, "memory");
    assert!(rt; legal(alloc, &SHAPE, &[], &events).ok().expect(rt, "memory"));
    let mut entries = Vec::new(alloc);
    stripe
        .append_entries(&mut entries)
        .ok()
        .expect(rt, "memory");
    outside.has_all(rt, &entries);
}

/// Ends the cache with all of its sessions.
fn close<R: Abort + Wait>(
    rt: &R,
    alloc: Global,
    outside: &Outside,
    owner: CacheOwner,
    sessions: Vec<Session>,
) {
    let closed = owner.close(alloc, sessions).ok();
    let Closed {
        stripes,
        outside: _outside,
        seats: _seats,
        legal,
    } = closed.expect(rt, "a closed cache");
    assert!(rt; legal);
    for stripe in &stripes {
        is_sound(rt, alloc, outside, stripe);
    }
}

/// Makes the calls of these lines by each session, and then one of all together.
fn play_all<R: Abort + Wait + Threads + Sync>(
    rt: &R,
    alloc: Global,
    outside: &Outside,
    cache: &Cache,
    sessions: &mut Vec<Session>,
    lines: &[&str],
) {
    play_beside(rt, alloc, outside, cache, sessions, lines);
    load_together(rt, alloc, outside, cache, sessions);
}

/// Plays these lines by each of those that bring a loader and a writer, and ends the cache. It says whether a fault was met.
pub fn plays<R: Abort + Wait + Threads + Sync>(
    rt: &R,
    alloc: Global,
    outside: &Outside,
    brought: Vec<Brought>,
    lines: &[&str],
) -> bool {
    let mut owner = CacheOwner::new(alloc, &SHAPE).ok().expect(rt, "a cache");
    let mut sessions = entered(rt, alloc, &mut owner, brought);
    play_all(rt, alloc, outside, owner.cache(), &mut sessions, lines);
    close(rt, alloc, outside, owner, sessions);
    outside.has_met(rt, alloc)
}
