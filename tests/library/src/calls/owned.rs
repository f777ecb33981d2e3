//! Whole calls on a stripe that nobody else has, in a text of lines as in `lines.rt`: calls, each with its answer and perhaps the
//! counts by then, and lines that say what there is by then. Those of the stripe are
//!
//!     cached b=3 c=5      what is cached, the most recently used first
//!     steps 0 a 1 < 1     the steps of the history, as in `scenes.rt`
use super::answers::op_of;
use super::desk::entries_of;
use super::histories::{are_events, events_of};
use super::lines::parts;
use super::mutexed::new_stripe;
use super::*;
use jc_engine::call_owned;
use jc_gate::Owner;
use jc_model::{Op, Reply, legal};
use jc_session::Agent;
use jc_stripe::{Origin, Stripe};

/// A call that asks somebody needs three free places of the history, which has 16, and a hit one. A call that is refused asks nobody
/// and leaves nothing.
const CALLS: &str = "\
get a = 1 | 1 0 0
get a = 1 | 1 0 0
get c = - | 2 0 0
put b 2 = ok | 2 1 0
replace b 3 = true | 2 2 0
replace c 4 = false | 2 2 0
cached b=3 a=1
stored a=1 b=3
get b = 3 | 2 2 0
remove a = true | 2 2 1
remove a = false | 2 2 2
get b = 3 | 2 2 2
get b = 3 | 2 2 2
put c 5 = ok | 2 3 2
get b = 3 | 2 3 2
get c = 5 | 2 3 2
own 14
cached c=5 b=3
put b 6 = HistoryFull | 2 3 2
get a = HistoryFull | 2 3 2
replace b 6 = HistoryFull | 2 3 2
own 14
cached c=5 b=3
stored b=3 c=5
get b = 3 | 2 3 2
own 15
cached b=3 c=5
steps 0#1 a 1 < 1, 0#2 a 1 < -, 0#3 c -, 0#4 b ok, 0#5 b true, 0#6 c false, 0#7 b 3, 0#8 a true, 0#9 a false, 0#10 b 3, \
0#11 b 3, 0#12 c ok, 0#13 b 3, 0#14 c 5, 0#18 b 3 < -
";

/// What a call is answered: what it replies, or its refusal.
fn ended_as(ended: Result<(), Refusal>, reply: Reply) -> Answer {
    match ended {
        Ok(()) => Ok(reply),
        Err(refusal) => Err(refusal),
    }
}

/// Makes the agent's next call.
fn call<R: Abort + Wait>(
    rt: &R,
    owner: &mut Owner,
    agent: &mut Agent,
    key: &Key,
    op: &Op,
) -> Answer {
    let caller = agent.next_call();
    let counts = agent.counts();
    assert!(rt; counts.reservations == 0);
    assert!(rt; counts.joins == 0);
    let stripe = owner.stripe();
    match stripe.origin() {
        Origin::Live => {}
        Origin::Played => panic!(rt; "a stripe of a script"),
    }
    assert!(rt; !stripe.lives());
    assert!(rt; stripe.generations_ended() == 0);
    assert!(rt; stripe.is_idle());
    assert!(rt; stripe.admits(caller, key));
    let mut reply = Reply::Unit;
    let ended = call_owned(rt, owner, agent, key, op, &mut reply);
    ended_as(ended, reply)
}

/// Makes the call that a line says. It is to answer what the line says, and the counts are to be these afterwards.
fn call_line<R: Abort + Wait>(
    rt: &R,
    desk: &Desk,
    owner: &mut Owner,
    agent: &mut Agent,
    line: &str,
) {
    let (text, answer, counts) = parts(rt, line);
    let (word, rest) = first_word(text);
    let (at, value) = first_word(rest);
    let op = op_of(rt, word, value);
    let found = call(rt, owner, agent, &key(rt, at), &op);
    is_at(rt, line, found, answer_of(rt, answer));
    if let Some(counts) = counts {
        desk.counted(rt, counts);
    }
}

/// A stripe has these entries, the most recently used first.
fn has_entries(rt: &impl Abort, alloc: Global, stripe: &Stripe, text: &str) {
    let mut entries = Vec::new(alloc);
    stripe.entries(&mut entries).expect(rt, "memory");
    assert!(rt;
        entries.as_slice() == entries_of(rt, alloc, text).as_slice(),
        "{text}"
    );
}

/// A stripe has made these steps and no others, and the checker calls them a legal history.
fn has_made(rt: &impl Abort, alloc: Global, stripe: &Stripe, steps: &str) {
    let events = events_of(rt, alloc, stripe);
    are_events(rt, &events, steps);
    assert!(rt; legal(alloc, stripe.config(), &[], &events).expect(rt, "memory"));
}

/// Does what a line says.
fn play<R: Abort + Wait>(
    rt: &R,
    alloc: Global,
    desk: &Desk,
    owner: &mut Owner,
    agent: &mut Agent,
    line: &str,
) {
    let (word, rest) = first_word(line);
    match word {
        "stored" => desk.holds(rt, alloc, rest),
        "own" => is(rt, Some(agent.own()), rest.parse().ok()),
        "cached" => has_entries(rt, alloc, owner.stripe(), rest),
        "steps" => has_made(rt, alloc, owner.stripe(), rest),
        _ => call_line(rt, desk, owner, agent, line),
    }
}

/// Does what each line of a text says.
fn plays<R: Abort + Wait>(
    rt: &R,
    alloc: Global,
    desk: &Desk,
    owner: &mut Owner,
    agent: &mut Agent,
    text: &str,
) {
    for line in text.split_terminator('\n') {
        play(rt, alloc, desk, owner, agent, line);
    }
}

#[test]
fn calls_on_a_stripe_of_its_own(rt: HostRuntime) {
    let alloc = rt.alloc();
    let desk = Desk::of(&rt, alloc, "a=1");
    let mut owner = Owner::new(new_stripe(&rt, alloc, &config(16, true, true)));
    let loader = Some(boxed!(rt, Loader, desk.loader(rt)));
    let writer = Some(boxed!(rt, Writer, desk.writer(rt)));
    let mut agent = Agent::new(0, loader, writer);
    plays(&rt, alloc, &desk, &mut owner, &mut agent, CALLS);
}
