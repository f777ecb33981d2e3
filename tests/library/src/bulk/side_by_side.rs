//! Sessions side by side, on threads of their own.
use super::closing::closed;
use super::lines::plays;
use super::outside::Outside;
use super::stage::Stage;
use super::*;
use crate::common::words::{first_word, key, value};
use jc_cache::{Ask, ClosedStripe, First, Op, Reply, Started, Ticket, WriteDone};
use std::thread;
use std::thread::Threads;

/// `load_all_side_by_side`: a `loadAll` by two sessions, whose loaders wait for each other. So both load some of the keys.
pub const LOADED: &str = "\
open 2 64 400
before
sessions 2 loaders
fault none
end stripes 16, 16
loadmany 32 = ok
told 1 0
counts 0 2 0 0 0 0
own 16
s2 own 16
";

/// A `get_all` joins a load that another thread has under way, and calls its own loader for the other key alone. The first loader
/// answers only after the second was called.
pub const JOINED: &str = "\
open 1 4 100
before a=1 b=2
sessions 2 loaders
fault none
end shared 1
beside get a = 1 | await;getall a b = a=1 b=2;own 2
counts 1 1 0 0 0 0
";

/// A `get_all` joins a load of another thread's session, and its own loader fails first. Both fail: what it met first is what its own
/// loader has failed with, although the key of the other one comes before.
pub const FAILED_FIRST: &str = "\
open 1 4 100
before a=1 b=2
sessions 2 loaders every 1
fault none
end stripes 3;shared 1
beside getall a = LoaderFailed 5: a LoaderFailed 5 | await;getall a b = LoaderFailed 7: a LoaderFailed 5, b LoaderFailed 7;own 2
counts 0 0 0 0 0 0
stored a=1 b=2
";

/// A session has been told what another one did, and goes on with it. A meeting is no step, and asks nobody.
pub const HANDED_ON: &str = "\
open 2 4 100 off
before
sessions 2
fault none
end stripes 2 b=2, 2 a=1;counts 0 0 0 0 0 0
put a 1 = -
put b 2 = -
own 2
meet
own 2
s2 own 0
s2 getall a b = a=1 b=2
s2 own 2
own 2
";

/// Two sessions, each on a thread of its own, meet between: one thread's session goes on where another thread's has left off.
pub const MET: &str = "\
open 2 8 100
before
sessions 2
fault none
end number 2
beside putall a=1 b=2 c=3 = ok | putall d=4 e=5 = ok
meet
own 3
s2 own 2
beside getall d e = d=4 e=5;putall f=6 = ok;own 6 | getall a b c = a=1 b=2 c=3;own 5
counts 0 0 0 3 0 0
";

/// A put is put off: the first session's key is reserved while the second one's writer is called. It is written in a later round.
pub const RESERVED: &str = "\
open 1 4 100
before
sessions 2 writers
fault none
end counts 0 0 1 2 0 0;stored a=1 b=2 c=3;stripes 4 c=3 b=2 a=1
putlate await;putall a=1 b=2 c=3 = ok;own 3
";

/// A `get_all` joins the first session's load, which is given up while the second session's loader is called for the other keys.
/// Then it retries that key in a later round, with its own loader. The load that was given up asks nobody, and leaves nothing.
pub const GIVEN_UP: &str = "\
open 1 4 100
before a=1 b=2 c=3
sessions 2 loaders
fault none
end counts 0 2 0 0 0 0;shared 0;stripes 3 c=3 b=2 a=1
withdraw await;getall a b c = a=1 b=2 c=3;own 3
";

fn is_writer(first: &First) -> bool {
    match first {
        First::Writer(_) => true,
        First::Nobody | First::Loader | First::Processor { .. } => false,
    }
}

/// The first phase of a call, which reserves its key.
fn reserve<R: Abort + Wait>(
    rt: &R,
    cache: &Cache,
    session: &mut Session,
    key: &Key,
    op: &Op,
) -> Ticket {
    session.next_call();
    match cache.start(rt, session, key, op, &mut Reply::Unit) {
        Started::Asks(ticket) => ticket,
        _other => panic!(rt; "nobody is to be asked"),
    }
}

/// The session's writer is called for a reservation.
fn ask_writer<R: Abort + Wait>(
    rt: &R,
    cache: &Cache,
    session: &mut Session,
    ticket: &mut Ticket,
) -> WriteDone<Ask> {
    assert!(rt; cache.config().write_through, "write-through");
    assert!(rt; is_writer(&ticket.reservation().first), "a write");
    session.agent.ask_writer(rt, ticket.ask())
}

/// A put of `c`, phase by phase. It says that it has reserved its key, and holds it until the second session's writer was called.
fn put_late<R: Abort + Wait>(rt: &R, outside: &Outside, cache: &Cache, session: &mut Session) {
    let put = Op::Put(value(rt, "9"));
    let mut ticket = reserve(rt, cache, session, &key(rt, "c"), &put);
    outside.signals.raise_first();
    outside.signals.wait_for_second(rt);
    let done = ask_writer(rt, cache, session, &mut ticket);
    let _step = cache.commit_write(rt, session, ticket, done, &mut Reply::Unit);
}

/// A get of `c`, phase by phase. It says that it has reserved its key, and is given up once the second session's loader was called.
fn get_in_vain<R: Abort + Wait>(rt: &R, outside: &Outside, cache: &Cache, session: &mut Session) {
    let ticket = reserve(rt, cache, session, &key(rt, "c"), &Op::Get);
    outside.signals.raise_first();
    outside.signals.wait_for_second(rt);
    cache.withdraw(rt, session, ticket);
}

/// What the session at this place does: the first one makes the call that a word says by phases, another one plays lines.
fn act<R: Abort + Wait>(
    rt: &R,
    alloc: Global,
    outside: &Outside,
    cache: &Cache,
    place: usize,
    session: &mut Session,
    text: &str,
) {
    let (word, lines) = first_word(text);
    if place > 0 {
        plays(rt, alloc, outside, cache, session, lines);
    } else if word == "putlate" {
        put_late(rt, outside, cache, session);
    } else {
        get_in_vain(rt, outside, cache, session);
    }
}

/// All sessions do that beside each other.
fn act_beside<R: Abort + Wait + Threads + Sync>(
    rt: &R,
    alloc: Global,
    outside: &Outside,
    cache: &Cache,
    sessions: &mut Vec<Session>,
    text: &str,
) {
    let threads = sessions.len();
    assert!(rt; threads > 0, "no session");
    thread::for_each_mut(
        rt,
        sessions.as_mut_slice(),
        threads,
        &|place, session: &mut Session| { act(rt, alloc, outside, cache, place, session, text) },
    );
}

/// Plays a text on a stage of two sessions, and ends the cache: what the first session does phase by phase, `putlate` or `withdraw`,
/// and what the second one does meanwhile.
pub fn by_phases<R: Abort + Wait + Threads + Sync>(
    rt: &R,
    alloc: Global,
    outside: &Outside,
    stage: Stage,
    text: &str,
) -> Vec<ClosedStripe> {
    let (owner, mut sessions) = stage.into_parts();
    act_beside(rt, alloc, outside, owner.cache(), &mut sessions, text);
    closed(rt, alloc, owner, sessions)
}
