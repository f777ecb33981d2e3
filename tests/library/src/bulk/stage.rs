//! A cache with its sessions. A line names its session, by its place; without a name it is the first. Besides the lines of a session
//! there are
//!
//!     loadall a c = ok            a `loadAll` by all sessions side by side
//!     loadmany 32 = ok            the same with so many keys
//!     meet                        the first session tells the last one what it has seen
//!     beside get a = 1 | own 0    what each session does, on a thread of its own, with `;` between its lines
use super::closing::closed;
use super::lines::{play, plays};
use super::outside::Outside;
use super::results::ended;
use super::words::many;
use super::*;
use crate::common::push;
use crate::common::words::{first_word, keys_of};
use indexmap::IndexSet;
use jc_cache::ClosedStripe;
use jc_loadall::load_all;
use std::thread;
use std::thread::Threads;

/// The owner of a cache, and sessions that may call it.
#[derive(Drop)]
pub struct Stage {
    owner: CacheOwner,
    sessions: Vec<Session>,
}

/// The session that a line names, and the rest of the line.
fn by_session(line: &str) -> (usize, &str) {
    let (word, rest) = first_word(line);
    match word {
        "s1" => (0, rest),
        "s2" => (1, rest),
        _ => (0, line),
    }
}

/// Does what a line says, by the session at this place.
fn play_at<R: Abort + Wait>(
    rt: &R,
    alloc: Global,
    outside: &Outside,
    cache: &Cache,
    sessions: &mut Vec<Session>,
    at: usize,
    line: &str,
) {
    assert!(rt; at < sessions.len(), "{line}");
    play(rt, alloc, outside, cache, &mut sessions[at], line);
}

/// Loads these keys by all sessions side by side. It is to end so.
fn load<R: Abort + Wait + Threads + Sync>(
    rt: &R,
    alloc: Global,
    outside: &Outside,
    cache: &Cache,
    sessions: &mut Vec<Session>,
    keys: &IndexSet<Key>,
    wanted: &str,
) {
    assert!(rt; sessions.len() > 0, "no session");
    let mut listener = outside.listener(rt, alloc);
    let all = sessions.as_mut_slice();
    let loaded = load_all(alloc, rt, cache, all, keys, false, &mut listener);
    ended(rt, loaded, wanted);
}

/// A session tells another one what it has seen. No run shows what that is good for: each call looks at the stripe itself, and finds
/// the same without it.
fn hold_meeting<R: Abort + Wait>(
    rt: &R,
    cache: &Cache,
    teller: &mut Session,
    hearer: &mut Session,
) {
    let own = (teller.own(), hearer.own());
    cache.meet(rt, teller, hearer);
    is(rt, (teller.own(), hearer.own()), own);
}

/// The first session tells the last one what it has seen.
fn tell_last<R: Abort + Wait>(rt: &R, cache: &Cache, sessions: &mut Vec<Session>) {
    let Some(mut last) = sessions.pop() else {
        panic!(rt; "no session");
    };
    assert!(rt; 0 < sessions.len(), "one session alone");
    hold_meeting(rt, cache, &mut sessions[0], &mut last);
    push(rt, sessions, last);
}

/// The part at a place of a text whose parts have ` | ` between, or nothing.
fn part_of(text: &str, at: usize) -> &str {
    let mut parts = text.split(" | ");
    for _ in 0..at {
        let _before = parts.next();
    }
    parts.next().unwrap_or("")
}

/// Plays texts beside each other, each by a session of its own on a thread of its own.
fn play_beside<R: Abort + Wait + Threads + Sync>(
    rt: &R,
    alloc: Global,
    outside: &Outside,
    cache: &Cache,
    sessions: &mut Vec<Session>,
    texts: &str,
) {
    let threads = sessions.len();
    assert!(rt; threads > 0, "no session");
    thread::for_each_mut(
        rt,
        sessions.as_mut_slice(),
        threads,
        &|i, session: &mut Session| {
            let text = part_of(texts, i);
            plays(rt, alloc, outside, cache, session, text);
        },
    );
}

/// Does what a line says.
fn play_line<R: Abort + Wait + Threads + Sync>(
    rt: &R,
    alloc: Global,
    outside: &Outside,
    cache: &Cache,
    sessions: &mut Vec<Session>,
    line: &str,
) {
    let (called, wanted) = line.split_once(" = ").unwrap_or((line, ""));
    let (word, rest) = first_word(called);
    match word {
        "loadall" => {
            let keys = keys_of(rt, alloc, rest);
            load(rt, alloc, outside, cache, sessions, &keys, wanted);
        }
        "loadmany" => {
            let keys = many(rt, alloc, rest);
            load(rt, alloc, outside, cache, sessions, &keys, wanted);
        }
        "meet" => tell_last(rt, cache, sessions),
        "beside" => {
            let (_word, texts) = first_word(line);
            play_beside(rt, alloc, outside, cache, sessions, texts);
        }
        _ => {
            let (at, rest) = by_session(line);
            play_at(rt, alloc, outside, cache, sessions, at, rest);
        }
    }
}

/// Does what each line of a text says.
fn play_lines<R: Abort + Wait + Threads + Sync>(
    rt: &R,
    alloc: Global,
    outside: &Outside,
    cache: &Cache,
    sessions: &mut Vec<Session>,
    text: &str,
) {
    for line in text.split_terminator('\n') {
        play_line(rt, alloc, outside, cache, sessions, line);
    }
}

impl Stage {
    /// A cache of this shape, which lives on or doesn't, without sessions.
    pub fn new(rt: &impl Abort, alloc: Global, config: &Config, lives: bool) -> Stage {
        let owner = if lives {
            CacheOwner::living(alloc, config)
        } else {
            CacheOwner::new(alloc, config)
        };
        Stage {
            owner: owner.ok().expect(rt, "a cache"),
            sessions: Vec::new(alloc),
        }
    }

    /// One more session, with this loader and this writer.
    pub fn enter(&mut self, rt: &impl Abort, alloc: Global, loader: Loader, writer: Writer) {
        let Ok(session) = self.owner.session(alloc, Some(loader), Some(writer)) else {
            panic!(rt; "no session");
        };
        push(rt, &mut self.sessions, session);
    }

    /// Does what each line of a text says.
    pub fn plays<R: Abort + Wait + Threads + Sync>(
        &mut self,
        rt: &R,
        alloc: Global,
        outside: &Outside,
        text: &str,
    ) {
        let sessions = &mut self.sessions;
        play_lines(rt, alloc, outside, self.owner.cache(), sessions, text);
    }

    /// The owner of the cache, and its sessions.
    pub fn into_parts(self) -> (CacheOwner, Vec<Session>) {
        let Stage { owner, sessions } = self;
        (owner, sessions)
    }

    /// Ends the cache with all of its sessions.
    pub fn close(self, rt: &impl Abort, alloc: Global) -> Vec<ClosedStripe> {
        let Stage { owner, sessions } = self;
        closed(rt, alloc, owner, sessions)
    }
}
