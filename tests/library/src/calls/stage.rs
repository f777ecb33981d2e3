//! A cache with its sessions. A line names its session, by its place; without a name it is the first. Besides the lines of a session
//! there are
//!
//!     beside get a = 1 / await; get b = 2     what sessions do beside each other, each on a thread of its own
//!     random                                  random calls of all sessions beside each other
//!     meet                                    the first session tells the last one what it has seen
use super::closing::closed;
use super::random::call_often;
use super::*;
use crate::common::push;
use jc_cache::{CloseFault, ClosedStripe};
use std::thread;
use std::thread::Threads;

/// The owner of a cache, and sessions that may call it.
#[derive(Drop)]
pub struct Stage {
    owner: CacheOwner,
    sessions: Vec<Session>,
}

/// The session that a line names, by its place, and the rest of the line. `s2 ` names the second one; without a name it is the first.
pub fn by_session(line: &str) -> (usize, &str) {
    let (word, rest) = first_word(line);
    match word {
        "s1" => (0, rest),
        "s2" => (1, rest),
        "s3" => (2, rest),
        "s4" => (3, rest),
        _ => (0, line),
    }
}

/// Does what a line says, by the session at this place.
fn play_at<R: Abort + Wait>(
    rt: &R,
    alloc: Global,
    desk: &Desk,
    cache: &Cache,
    sessions: &mut Vec<Session>,
    at: usize,
    line: &str,
) {
    assert!(rt; at < sessions.len(), "{line}");
    desk.play(rt, alloc, cache, &mut sessions[at], line);
}

/// The part at this place of a line that has ` / ` between two of them; after the last one it is empty.
fn part_at(line: &str, place: usize) -> &str {
    let mut parts = line.split(" / ");
    for _ in 0..place {
        let _before = parts.next();
    }
    parts.next().unwrap_or("")
}

/// Plays the parts of a line beside each other, each by a session of its own on a thread of its own.
fn play_beside<R: Abort + Wait + Threads + Sync>(
    rt: &R,
    alloc: Global,
    desk: &Desk,
    cache: &Cache,
    sessions: &mut Vec<Session>,
    line: &str,
) {
    let threads = sessions.len();
    assert!(rt; threads > 0, "no session");
    thread::for_each_mut(
        rt,
        sessions.as_mut_slice(),
        threads,
        &|i, session: &mut Session| { desk.plays(rt, alloc, cache, session, part_at(line, i)) },
    );
}

/// The first session tells the last one what it has seen.
fn tell_last<R: Abort + Wait>(rt: &R, cache: &Cache, sessions: &mut Vec<Session>) {
    let Some(mut last) = sessions.pop() else {
        panic!(rt; "no session");
    };
    assert!(rt; 0 < sessions.len(), "one session alone");
    cache.meet(rt, &mut sessions[0], &mut last);
    push(rt, sessions, last);
}

/// Random calls of all sessions beside each other, each on a thread of its own.
fn call_beside<R: Abort + Wait + Threads + Sync>(
    rt: &R,
    desk: &Desk,
    cache: &Cache,
    sessions: &mut Vec<Session>,
) {
    let threads = sessions.len();
    assert!(rt; threads > 0, "no session");
    thread::for_each_mut(
        rt,
        sessions.as_mut_slice(),
        threads,
        &|seed, session: &mut Session| { call_often(rt, &desk.times, cache, session, seed as u64) },
    );
}

/// Does what a line says.
fn play_line<R: Abort + Wait + Threads + Sync>(
    rt: &R,
    alloc: Global,
    desk: &Desk,
    cache: &Cache,
    sessions: &mut Vec<Session>,
    line: &str,
) {
    let (word, rest) = first_word(line);
    match word {
        "beside" => play_beside(rt, alloc, desk, cache, sessions, rest),
        "random" => call_beside(rt, desk, cache, sessions),
        "meet" => tell_last(rt, cache, sessions),
        _ => {
            let (at, rest) = by_session(line);
            play_at(rt, alloc, desk, cache, sessions, at, rest);
        }
    }
}

/// Does what each line of a text says.
fn play_lines<R: Abort + Wait + Threads + Sync>(
    rt: &R,
    alloc: Global,
    desk: &Desk,
    cache: &Cache,
    sessions: &mut Vec<Session>,
    text: &str,
) {
    for line in text.split_terminator('\n') {
        play_line(rt, alloc, desk, cache, sessions, line);
    }
}

impl Stage {
    /// A cache of this shape, without sessions.
    pub fn new(rt: &impl Abort, alloc: Global, config: &Config) -> Stage {
        let owner = CacheOwner::new(alloc, config).ok().expect(rt, "a cache");
        Stage::of(alloc, owner)
    }

    /// The cache of this owner, without sessions.
    pub fn of(alloc: Global, owner: CacheOwner) -> Stage {
        Stage {
            owner,
            sessions: Vec::new(alloc),
        }
    }

    /// One more session, with this loader and this writer.
    pub fn enter(
        &mut self,
        rt: &impl Abort,
        alloc: Global,
        loader: Option<Loader>,
        writer: Option<Writer>,
    ) {
        let Ok(session) = self.owner.session(alloc, loader, writer) else {
            panic!(rt; "no session");
        };
        push(rt, &mut self.sessions, session);
    }

    /// Does what each line of a text says.
    pub fn plays<R: Abort + Wait + Threads + Sync>(
        &mut self,
        rt: &R,
        alloc: Global,
        desk: &Desk,
        text: &str,
    ) {
        let sessions = &mut self.sessions;
        play_lines(rt, alloc, desk, self.owner.cache(), sessions, text);
    }

    /// Ends the cache with all of its sessions.
    pub fn close<R: Abort + Wait>(self, rt: &R, alloc: Global) -> Vec<ClosedStripe> {
        let Stage { owner, sessions } = self;
        closed(rt, alloc, owner, sessions)
    }

    /// The owner of the cache, and its sessions.
    pub fn into_parts(self) -> (CacheOwner, Vec<Session>) {
        let Stage { owner, sessions } = self;
        (owner, sessions)
    }

    /// The cache isn't closed without its last session. It comes back with those that were handed in.
    pub fn close_without_last(self, rt: &impl Abort, alloc: Global) -> Stage {
        let Stage {
            owner,
            mut sessions,
        } = self;
        let Some(last) = sessions.pop() else {
            panic!(rt; "no session");
        };
        match owner.close(alloc, sessions) {
            Ok(_closed) => panic!(rt; "closed"),
            Err(fault) => reopened(rt, fault, last),
        }
    }
}

/// What a close that was refused has handed back, and the session that was missing.
fn reopened(rt: &impl Abort, fault: CloseFault, last: Session) -> Stage {
    let CloseFault {
        refusal,
        owner,
        mut sessions,
    } = fault;
    is(rt, refusal, Refusal::StillReserved);
    push(rt, &mut sessions, last);
    Stage { owner, sessions }
}
