//! A lock round a stripe, which threads share.
use super::*;
use jc_lock::{HistLock, Seat};
use jc_model::{Op, Reply};
use jc_stripe::Started;
use jc_types::Caller;
use mutexed::new_stripe;
use std::thread;

/// How many calls each session makes.
const CALLS: u64 = 300;

/// A lock round a new stripe, and its first seat.
fn open(rt: &impl Abort, alloc: Global) -> (HistLock, Seat) {
    let stripe = new_stripe(rt, alloc, &config(2_000, false, false));
    HistLock::new(alloc, stripe).expect(rt, "memory")
}

/// Takes the stripe, puts a value, and gives the stripe back.
fn put_once<R: Abort + Wait>(
    rt: &R,
    lock: &HistLock,
    seat: &mut Seat,
    caller: Caller,
    key: &Key,
    value: &Value,
) {
    let mut stripe = lock.take(rt, seat);
    assert!(rt; stripe.admits(caller, key), "{caller:?} may begin");
    match stripe.begin(caller, key, &Op::Put(*value), &mut Reply::Unit) {
        Started::Done(_) => {}
        _other => panic!(rt; "the put isn't done"),
    }
    lock.give(seat, stripe);
}

/// Puts a session's values, one after the other: each put is a take, a phase and a give.
fn put_often<R: Abort + Wait>(rt: &R, lock: &HistLock, mut seat: Seat, session: u32) -> Seat {
    let (key, value) = (key(rt, "k"), value(rt, "v"));
    for call in 0..CALLS {
        put_once(rt, lock, &mut seat, Caller { session, call }, &key, &value);
    }
    seat
}

#[test]
fn two_threads_put_beside_each_other(rt: HostRuntime) {
    let (lock, mut first) = open(&rt, rt.alloc());
    let one = lock.split(&mut first);
    let two = lock.split(&mut first);
    let lent = &lock;
    let (one, two) = thread::join(
        &rt,
        move || { put_often(&rt, lent, one, 0) },
        move || { put_often(&rt, lent, two, 1) },
    );
    lock.join(&mut first, one);
    lock.join(&mut first, two);
    let stripe = lock.close(first).expect(&rt, "the stripe");
    is(&rt, stripe.events_len(), 2 * CALLS as usize);
}

#[test]
fn a_stripe_that_is_held_is_not_taken(rt: HostRuntime) {
    let (lock, mut first) = open(&rt, rt.alloc());
    let mut other = lock.split(&mut first);
    let stripe = lock.try_take(&mut first).expect(&rt, "a free stripe");
    assert!(&rt; lock.try_take(&mut other).is_none(), "it is held");
    lock.give(&mut first, stripe);
    lock.tell(&mut first, &mut other);
    let stripe = lock.try_take(&mut other).expect(&rt, "a free stripe");
    is(&rt, stripe.events_len(), 0);
    is(&rt, lock.close(first).is_none(), true);
}
