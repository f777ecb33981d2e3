//! Calls that wait for nobody, while somebody else holds the stripe.
use super::*;
use jc_engine::Access;
use jc_lock::{HistLock, Seat};
use jc_model::{Op, Reply};
use jc_session::Agent;
use jc_stripe::{Origin, Stripe};

/// A lock round a new stripe, and its first seat, which gives seats out.
fn locked(rt: &impl Abort, alloc: Global) -> (HistLock, Seat) {
    let config = config(100, false, false);
    config.check().expect(rt, "a shape");
    let stripe = Stripe::new(alloc, &config, 0, Origin::Live).expect(rt, "memory");
    let stripe = Box::new(alloc, stripe).expect(rt, "memory");
    HistLock::new(alloc, stripe).expect(rt, "memory")
}

/// What the first call of a session is answered, if it waits for nobody.
fn tried(
    lock: &HistLock,
    seat: &mut Seat,
    agent: &mut Agent,
    key: &Key,
    op: &Op,
) -> Result<Reply, Refusal> {
    let mut gate = lock;
    let mut access = Access {
        gate: &mut gate,
        token: seat,
        agent,
    };
    let mut reply = Reply::Unit;
    access.try_call(key, op, &mut reply)?;
    Ok(reply)
}

/// The first call of the next session, if it waits for nobody, is answered so.
fn is_tried(
    rt: &impl Abort,
    lock: &HistLock,
    first: &mut Seat,
    session: u32,
    op: &Op,
    want: Answer,
) {
    let mut seat = lock.split(first);
    let mut agent = Agent::new(session, None, None);
    agent.next_call();
    let found = tried(lock, &mut seat, &mut agent, &key(rt, "a"), op);
    is_at(rt, "a call that waits for nobody", found, want);
}

/// Each call that waits for nobody is refused as `Busy` while somebody else holds the stripe, and is done once it is given back.
#[test]
fn nobody_waits_for_a_stripe_that_is_held(rt: HostRuntime) {
    let (lock, mut first) = locked(&rt, rt.alloc());
    let stripe = lock.try_take(&mut first).expect(&rt, "a free stripe");
    let put = Op::Put(value(&rt, "1"));
    is_tried(&rt, &lock, &mut first, 0, &put, Err(Refusal::Busy));
    is_tried(&rt, &lock, &mut first, 1, &Op::Get, Err(Refusal::Busy));
    is_tried(
        &rt,
        &lock,
        &mut first,
        2,
        &Op::ContainsKey,
        Err(Refusal::Busy),
    );
    lock.give(&mut first, stripe);
    is_tried(&rt, &lock, &mut first, 3, &put, Ok(Reply::Unit));
}
