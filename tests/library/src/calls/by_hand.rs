//! Calls that a session makes phase by phase, with other sessions' calls between the phases.
use super::closing::closed;
use super::histories::are_steps;
use super::phases::{
    ask_loader, ask_writer, gives_up, is_busy, is_to_retry, join_load, not_yet, picks, replies,
    report, reserve, run, sees,
};
use super::scripted::processor_of;
use super::*;
use crate::common::push;
use jc_cache::{Op, Reply};

/// Three sessions, each by itself.
#[derive(Drop)]
struct Three {
    first: Session,
    second: Session,
    third: Session,
}

/// A story is a text of lines, each a part's name and what it says:
///
/// - `with`: how the first session's loader and writer behave;
/// - `call`: which call the first session makes phase by phase, on `a`: `get`, `put`, or `invoke` with the processor's calls; or
///   `withdraw`, a `get` that it gives up before it asks anybody;
/// - `reply`: what it is answered;
/// - `first`, `between`, `then`: what a third session does before the first phase, between the phases, and after the last one;
/// - `parked`: what it does while the second session's answer waits to be picked up;
/// - `retry`, `again`: whole calls of the second session, which was told to retry, and then of the first one, which gave its call up;
/// - `lives`: that the cache lives on, over a history that has room for so many events;
/// - `steps`: the steps of the stripe.
///
/// A part that is missing says nothing.
fn part<'a>(story: &'a str, name: &str) -> &'a str {
    for line in story.lines() {
        let (first, rest) = first_word(line);
        if first == name {
            return rest;
        }
    }
    ""
}

/// A load, phase by phase: it holds no stripe, and a second session joins it and has its answer. Before its commit nobody sees its
/// value.
fn load<R: Abort + Wait>(
    rt: &R,
    alloc: Global,
    desk: &Desk,
    cache: &Cache,
    sessions: &mut Three,
    story: &str,
) {
    let Three {
        first,
        second,
        third,
    } = sessions;
    let a = key(rt, "a");
    let mut ticket = reserve(rt, cache, first, &a, &Op::Get);
    let join = join_load(rt, cache, second, &a);
    desk.plays(rt, alloc, cache, third, part(story, "between"));
    let done = ask_loader(rt, first, &mut ticket);
    let join = not_yet(rt, cache, second, join);
    sees(rt, alloc, cache, first, 1);
    let mut reply = Reply::Unit;
    let step = cache.commit_load(rt, first, ticket, done, &mut reply);
    replies(rt, reply, part(story, "reply"));
    desk.plays(rt, alloc, cache, third, part(story, "parked"));
    picks(rt, cache, second, join, step.place, part(story, "reply"));
    desk.plays(rt, alloc, cache, third, part(story, "then"));
}

/// A load that is given up before the loader is asked: nothing is appended, and a second session, which has joined it, is told to
/// retry. The key can be reserved again at once. Then both may make whole calls.
fn withdraw<R: Abort + Wait>(
    rt: &R,
    alloc: Global,
    desk: &Desk,
    cache: &Cache,
    sessions: &mut Three,
    story: &str,
) {
    let Three {
        first,
        second,
        third,
    } = sessions;
    let a = key(rt, "a");
    let ticket = reserve(rt, cache, first, &a, &Op::Get);
    let join = join_load(rt, cache, second, &a);
    desk.plays(rt, alloc, cache, third, part(story, "between"));
    gives_up(rt, cache, first, ticket);
    let ticket = reserve(rt, cache, first, &a, &Op::Get);
    gives_up(rt, cache, first, ticket);
    desk.plays(rt, alloc, cache, third, part(story, "parked"));
    is_to_retry(rt, cache, second, join);
    desk.plays(rt, alloc, cache, second, part(story, "retry"));
    desk.plays(rt, alloc, cache, first, part(story, "again"));
    desk.plays(rt, alloc, cache, third, part(story, "then"));
}

/// A write, phase by phase. Nobody else can change the entry meanwhile, and until the commit it is the old one.
fn write<R: Abort + Wait>(
    rt: &R,
    alloc: Global,
    desk: &Desk,
    cache: &Cache,
    sessions: &mut Three,
    story: &str,
) {
    let Three {
        first,
        second,
        third,
    } = sessions;
    let a = key(rt, "a");
    desk.plays(rt, alloc, cache, third, part(story, "first"));
    let mut ticket = reserve(rt, cache, first, &a, &Op::Put(value(rt, "5")));
    is_busy(rt, cache, second, &a, &Op::Remove);
    let done = ask_writer(rt, cache, first, &mut ticket);
    desk.plays(rt, alloc, cache, third, part(story, "between"));
    let mut reply = Reply::Unit;
    let _step = cache.commit_write(rt, first, ticket, done, &mut reply);
    replies(rt, reply, part(story, "reply"));
    desk.plays(rt, alloc, cache, third, part(story, "then"));
}

/// A processor and its writer, phase by phase.
fn process<R: Abort + Wait>(
    rt: &R,
    alloc: Global,
    desk: &Desk,
    cache: &Cache,
    sessions: &mut Three,
    story: &str,
    calls: &str,
) {
    let Three {
        first,
        second,
        third,
    } = sessions;
    let a = key(rt, "a");
    desk.plays(rt, alloc, cache, third, part(story, "first"));
    let mut ticket = reserve(rt, cache, first, &a, &Op::Invoke);
    is_busy(rt, cache, second, &a, &Op::Put(value(rt, "5")));
    let mut processor = processor_of(rt, alloc, calls);
    let done = run(rt, first, &mut ticket, &mut processor);
    let report = report(rt, cache, first, &mut ticket, &done);
    desk.plays(rt, alloc, cache, third, part(story, "between"));
    let mut reply = Reply::Unit;
    let _step = cache.commit_process(rt, first, ticket, done, report, &mut reply);
    replies(rt, reply, part(story, "reply"));
    desk.plays(rt, alloc, cache, third, part(story, "then"));
}

/// The first session makes the story's call by hand, with other sessions' calls between its phases.
fn play<R: Abort + Wait>(
    rt: &R,
    alloc: Global,
    desk: &Desk,
    cache: &Cache,
    sessions: &mut Three,
    story: &str,
) {
    match first_word(part(story, "call")) {
        ("get", _) => load(rt, alloc, desk, cache, sessions, story),
        ("withdraw", _) => withdraw(rt, alloc, desk, cache, sessions, story),
        ("put", _) => write(rt, alloc, desk, cache, sessions, story),
        ("invoke", calls) => process(rt, alloc, desk, cache, sessions, story, calls),
        (other, _) => panic!(rt; "no call: {other}"),
    }
}

/// The three sessions of a list.
fn three_of(rt: &impl Abort, sessions: Vec<Session>) -> Three {
    let mut sessions = sessions;
    let Some(third) = sessions.pop() else {
        panic!(rt; "no session");
    };
    let Some(second) = sessions.pop() else {
        panic!(rt; "one session");
    };
    let Some(first) = sessions.pop() else {
        panic!(rt; "two sessions");
    };
    Three {
        first,
        second,
        third,
    }
}

/// A list of them.
fn listed(rt: &impl Abort, alloc: Global, sessions: Three) -> Vec<Session> {
    let Three {
        first,
        second,
        third,
    } = sessions;
    let mut list = Vec::new(alloc);
    push(rt, &mut list, first);
    push(rt, &mut list, second);
    push(rt, &mut list, third);
    list
}

/// Plays a story by three sessions.
fn played<R: Abort + Wait>(
    rt: &R,
    alloc: Global,
    desk: &Desk,
    cache: &Cache,
    sessions: Vec<Session>,
    story: &str,
) -> Vec<Session> {
    let mut three = three_of(rt, sessions);
    play(rt, alloc, desk, cache, &mut three, story);
    listed(rt, alloc, three)
}

/// Plays a story on a stage of three sessions, and ends the cache.
fn tell<R: Abort + Wait>(rt: &R, alloc: Global, desk: &Desk, stage: Stage, story: &str) {
    let (owner, sessions) = stage.into_parts();
    let sessions = played(rt, alloc, desk, owner.cache(), sessions, story);
    let stripes = closed(rt, alloc, owner, sessions);
    let first = stripes.first().expect(rt, "a stripe");
    if first.lives() {
        is(rt, first.generations_ended(), 1);
        return;
    }
    are_steps(rt, alloc, first, part(story, "steps"));
}

/// A stage for a story, without sessions.
fn stage_of(rt: &impl Abort, alloc: Global, story: &str) -> Stage {
    match part(story, "lives").parse().ok() {
        Some(history) => {
            let owner = CacheOwner::living(alloc, &config(history, true, true)).ok();
            Stage::of(alloc, owner.expect(rt, "a cache"))
        }
        None => Stage::new(rt, alloc, &config(100, true, true)),
    }
}

/// The first session's loader fails with 7, and its writer with 9, in the second three. A load that failed is also the answer of who
/// has joined it; a write that failed leaves the entry. In the seventh one the history is full while an answer is there that nobody
/// has picked up: it ends after that. In the next two the first session's load is given up: its loader, which fails, isn't asked. Who is
/// told to retry has no answer to pick up, so the history ends meanwhile. In the last
/// five keys are invalidated: while the first session has reserved one, with and without who has joined it; all of them; and while the
/// history is full and can't end.
const STORIES: [&str; 14] = [
    "\
with plain plain
call get
reply 1
between get b = 2 | 1 0 0; tryput a 5 = Busy
then get a = 1 | 2 0 0
steps 2 b 2, 0 a 1, 1 a 1, 2 a 1
",
    "\
with plain plain
call put
reply ok
first get a = 1 | 1 0 0
between stored a=5 b=2; get a = 1 | 1 1 0
then get a = 5 | 1 1 0
steps 2 a 1, 2 a 1, 0 a ok, 2 a 5
",
    "\
with plain plain
call invoke get set=4
reply 1
first get b = 2 | 1 0 0
between stored a=4 b=2; contains a = false | 2 1 0
then get a = 4 | 2 1 0
steps 2 b 2, 2 a false, 0 a 1, 2 a 4
",
    "\
with fails7 fails9
call get
reply LoaderFailed 7
between get b = 2 | 1 0 0; tryput a 5 = Busy
then get a = 1 | 2 0 0
steps 2 b 2, 0 a LoaderFailed 7, 1 a LoaderFailed 7, 2 a 1
",
    "\
with fails7 fails9
call put
reply WriterFailed 9
first get a = 1 | 1 0 0
between stored a=1 b=2; get a = 1 | 1 0 0
then get a = 1 | 1 0 0
steps 2 a 1, 2 a 1, 0 a WriterFailed 9, 2 a 1
",
    "\
with fails7 fails9
call invoke set=4 get
reply WriterFailed 9
first get b = 2 | 1 0 0
between stored a=1 b=2; contains a = false | 1 0 0
then get a = 1 | 2 0 0
steps 2 b 2, 2 a false, 0 a WriterFailed 9, 2 a 1
",
    "\
with plain plain
lives 16
call get
reply 1
between get b = 2 | 1 0 0
parked tryget b = 2; tryget b = 2; tryget b = 2; tryget b = 2; tryget b = 2; tryget b = 2; tryget b = 2; \
tryget b = 2; tryget b = 2; tryget b = 2; tryget b = 2; tryget b = 2; tryget b = 2; tryget b = Busy; tryget b = Busy
then tryget b = 2; tryget b = 2; get b = 2 | 2 0 0
",
    "\
with fails7 plain
call withdraw
between get b = 2 | 1 0 0; tryget a = Busy; tryput a 5 = Busy
parked get b = 2 | 1 0 0; own 2
retry own 0; get a = 1 | 2 0 0; own 1
again own 0; get a = 1 | 2 0 0; own 1
then get a = 1 | 2 0 0
steps 2 b 2, 2 b 2, 1#2 a 1 < 1, 0#3 a 1 < -, 2 a 1 < -
",
    "\
with fails7 plain
lives 16
call withdraw
between get b = 2 | 1 0 0
parked tryget b = 2; tryget b = 2; tryget b = 2; tryget b = 2; tryget b = 2; tryget b = 2; tryget b = 2; \
tryget b = 2; tryget b = 2; tryget b = 2; tryget b = 2; tryget b = 2; tryget b = 2; tryget b = 2; tryget b = 2
retry get a = 1 | 2 0 0
again get a = 1 | 2 0 0; own 1
",
    "\
with plain plain
call get
reply 1
between get b = 2 | 1 0 0; invalidate a; tryget a = Busy; tryput a 5 = Busy
parked get b = 2 | 2 0 0
then get a = 1 | 3 0 0; counts 1 4 0 0 0
steps 2 b 2, 0 a 1, 1 a 1, evict a, 2 b 2, 2 a 1
",
    "\
with plain plain
call put
reply ok
first get a = 1 | 1 0 0
between stored a=5 b=2; invalidate a; tryget a = Busy
then get a = 5 | 2 1 0
steps 2 a 1, 0 a ok, evict a, 2 a 5
",
    "\
with fails7 plain
call withdraw
between get b = 2 | 1 0 0; invalidate a; tryget a = Busy
parked get b = 2 | 1 0 0
retry get a = 1 | 2 0 0
again get a = 1 | 2 0 0
steps 2 b 2, 2 b 2, 1 a 1, 0 a 1
",
    "\
with plain plain
call get
reply 1
between get b = 2 | 1 0 0; invalidateall; tryget a = Busy; get b = 2 | 2 0 0
then get a = 1 | 4 0 0; get b = 2 | 4 0 0
steps 2 b 2, evict b, 2 b 2, 0 a 1, 1 a 1, evict a, 2 a 1, 2 b 2
",
    "\
with plain plain
lives 16
call get
reply 1
between get b = 2 | 1 0 0
parked tryget b = 2; tryget b = 2; tryget b = 2; tryget b = 2; tryget b = 2; tryget b = 2; tryget b = 2; \
tryget b = 2; tryget b = 2; tryget b = 2; tryget b = 2; tryget b = 2; tryget b = 2; invalidate b; tryget b = Busy
then get b = 2 | 3 0 0; get a = 1 | 4 0 0
",
];

/// How the loader and the writer of the session at this place behave.
fn manners(rt: &impl Abort, story: &str, place: usize) -> Manners {
    if place > 0 {
        return Manners::PLAIN;
    }
    Manners::of(rt, part(story, "with"))
}

#[test]
fn makes_calls_by_hand(rt: HostRuntime) {
    let alloc = rt.alloc();
    for story in &STORIES {
        let desk = Desk::of(&rt, alloc, "a=1 b=2");
        let mut stage = stage_of(&rt, alloc, story);
        for place in 0..3 {
            enter!(rt, stage, desk, manners(&rt, story, place));
        }
        tell(&rt, alloc, &desk, stage, story);
    }
}
