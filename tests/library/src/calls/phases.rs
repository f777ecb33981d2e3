//! Phases of calls by hand: each makes one phase of a session, and says what is to come of it.
use super::answers::replied_as;
use super::*;
use jc_cache::{
    Ask, EntryProcessor, First, Join, LoadDone, Op, Picked, ProcDone, Started, Ticket, WriteDone,
};
use jc_model::Reply;

// 1. First phases.

/// The first phase of the session's next call, which reserves the key.
pub fn reserve<R: Abort + Wait>(
    rt: &R,
    cache: &Cache,
    session: &mut Session,
    key: &Key,
    op: &Op,
) -> Ticket {
    session.next_call();
    match cache.start(rt, session, key, op, &mut Reply::Unit) {
        Started::Asks(ticket) => ticket,
        _other => panic!(rt; "nobody is to be asked"),
    }
}

/// The first phase of the session's next call, a `get` that joins another session's load.
pub fn join_load<R: Abort + Wait>(rt: &R, cache: &Cache, session: &mut Session, key: &Key) -> Join {
    session.next_call();
    match cache.start(rt, session, key, &Op::Get, &mut Reply::Unit) {
        Started::Joined(join) => join,
        _other => panic!(rt; "no load to join"),
    }
}

/// The first phase of the session's next call, which is refused since another session has reserved the key.
pub fn is_busy<R: Abort + Wait>(rt: &R, cache: &Cache, session: &mut Session, key: &Key, op: &Op) {
    session.next_call();
    match cache.start(rt, session, key, op, &mut Reply::Unit) {
        Started::Refused(why) => is(rt, why, Refusal::Busy),
        _other => panic!(rt; "the key isn't reserved"),
    }
}

// 2. Calls outside, with no stripe held.

fn is_loader(first: &First) -> bool {
    match first {
        First::Loader => true,
        First::Nobody | First::Writer(_) | First::Processor { .. } => false,
    }
}

fn is_writer(first: &First) -> bool {
    match first {
        First::Writer(_) => true,
        First::Nobody | First::Loader | First::Processor { .. } => false,
    }
}

fn is_processor(first: &First) -> bool {
    match first {
        First::Processor { .. } => true,
        First::Nobody | First::Loader | First::Writer(_) => false,
    }
}

/// The session's loader is called for a reservation.
pub fn ask_loader<R: Abort + Wait>(
    rt: &R,
    session: &mut Session,
    ticket: &mut Ticket,
) -> LoadDone<Ask> {
    assert!(rt; is_loader(&ticket.reservation().first), "a load");
    session.agent.ask_loader(rt, ticket.ask())
}

/// The session's writer is called for a reservation.
pub fn ask_writer<R: Abort + Wait>(
    rt: &R,
    cache: &Cache,
    session: &mut Session,
    ticket: &mut Ticket,
) -> WriteDone<Ask> {
    assert!(rt; cache.config().write_through, "write-through");
    assert!(rt; is_writer(&ticket.reservation().first), "a write");
    session.agent.ask_writer(rt, ticket.ask())
}

/// A processor runs for a reservation.
pub fn run<R: Abort + Wait>(
    rt: &R,
    session: &mut Session,
    ticket: &mut Ticket,
    processor: &mut Box<dyn EntryProcessor + Send + Drop>,
) -> ProcDone<Ask> {
    assert!(rt; is_processor(&ticket.reservation().first), "a processor");
    session
        .agent
        .run_processor(rt, ticket.ask(), processor, &[])
}

/// The session's writer is called for what a processor did, if there is anything to write.
pub fn report<R: Abort + Wait>(
    rt: &R,
    cache: &Cache,
    session: &mut Session,
    ticket: &mut Ticket,
    done: &ProcDone<Ask>,
) -> Option<WriteDone<Ask>> {
    if !cache.config().write_through {
        return None;
    }
    match done.change() {
        Some(_change) => Some(session.agent.ask_writer(rt, ticket.ask_writer(done))),
        None => None,
    }
}

// 3. Calls that are given up.

/// A session gives up a call that has reserved its key and asked nobody. It may call again.
pub fn gives_up<R: Abort + Wait>(rt: &R, cache: &Cache, session: &mut Session, ticket: Ticket) {
    cache.withdraw(rt, session, ticket);
}

/// A session is told to retry, since the load that it has joined was given up. It may call again.
pub fn is_to_retry<R: Abort + Wait>(rt: &R, cache: &Cache, session: &mut Session, join: Join) {
    let mut reply = Reply::Unit;
    match cache.pick_up(rt, session, join, &mut reply) {
        Picked::Again => {}
        _other => panic!(rt; "the load wasn't given up"),
    }
}

// 4. Pick-ups, replies, and what is cached.

/// The load that a session has joined isn't over.
pub fn not_yet<R: Abort + Wait>(rt: &R, cache: &Cache, session: &mut Session, join: Join) -> Join {
    match cache.pick_up(rt, session, join, &mut Reply::Unit) {
        Picked::NotYet(join) => join,
        Picked::Answer { .. } | Picked::Again => panic!(rt; "the load is over"),
    }
}

/// A session picks up this answer of the load that it has joined, which shares the step at this place.
pub fn picks<R: Abort + Wait>(
    rt: &R,
    cache: &Cache,
    session: &mut Session,
    join: Join,
    place: u32,
    want: &str,
) {
    let mut reply = Reply::Unit;
    match cache.pick_up(rt, session, join, &mut reply) {
        Picked::Answer {
            place: _own,
            shared_with,
        } => {
            is(rt, shared_with, place);
            replies(rt, reply, want);
        }
        _other => panic!(rt; "no answer"),
    }
}

/// A step has this reply.
pub fn replies(rt: &impl Abort, reply: Reply, want: &str) {
    is_at(rt, want, replied_as(reply), answer_of(rt, want));
}

/// So many keys of the first stripe have an entry.
pub fn sees<R: Abort + Wait>(
    rt: &R,
    alloc: Global,
    cache: &Cache,
    session: &mut Session,
    keys: usize,
) {
    let config = *cache.config();
    assert!(rt; config.stripes > 0);
    let mut found = Vec::with_capacity(alloc, config.capacity).expect(rt, "memory");
    cache.look(rt, session, 0, &mut found);
    is(rt, found.len(), keys);
}
