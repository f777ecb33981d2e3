//! A stripe under a `Mutex`, whose threads make calls of phases of their own.
use super::histories::events_of;
use super::*;
use jc_gate::{Gate, MutexGate};
use jc_model::{Op, Reply, legal};
use jc_stripe::{Origin, Started, Stripe};
use jc_types::Caller;
use std::thread;

/// How many calls each session makes.
const CALLS: u64 = 300;

/// A stripe of this shape, with nothing in it.
pub fn new_stripe(rt: &impl Abort, alloc: Global, config: &Config) -> Box<Stripe> {
    config.check().expect(rt, "a shape");
    let stripe = Stripe::new(alloc, config, 0, Origin::Live).expect(rt, "memory");
    Box::new(alloc, stripe).expect(rt, "memory")
}

/// Takes the stripe, puts a value, and gives the stripe back.
fn put_once<R: Abort + Wait>(rt: &R, gate: &MutexGate, caller: Caller, key: &Key, value: &Value) {
    let mut lent = gate;
    let mut seat = gate.seat();
    let mut stripe = lent.take(rt, &mut seat);
    assert!(rt; stripe.admits(caller, key), "{caller:?} may begin");
    match stripe.begin(caller, key, &Op::Put(*value), &mut Reply::Unit) {
        Started::Done(_) => {}
        _other => panic!(rt; "the put isn't done"),
    }
    lent.give(&mut seat, stripe);
}

/// Puts a session's values, one after the other.
fn put_often<R: Abort + Wait>(rt: &R, gate: &MutexGate, session: u32) {
    let (key, value) = (key(rt, "k"), value(rt, "v"));
    for call in 0..CALLS {
        put_once(rt, gate, Caller { session, call }, &key, &value);
    }
}

/// Three sessions put on threads of their own. Each put is one step, and all of them are a legal history.
#[test]
fn threads_put_under_a_mutex(rt: HostRuntime) {
    let alloc = rt.alloc();
    let config = config(2_000, false, false);
    let gate = MutexGate::new(new_stripe(&rt, alloc, &config));
    let mut sessions = [0u32, 1, 2];
    thread::for_each_mut(
        &rt,
        &mut sessions,
        3,
        &|_, session| { put_often(&rt, &gate, *session) },
    );
    let stripe = gate.into_stripe().expect(&rt, "the stripe");
    is(&rt, stripe.events_len(), 3 * CALLS as usize);
    let events = events_of(&rt, alloc, &stripe);
    assert!(&rt; legal(alloc, &config, &[], &events).expect(&rt, "memory"));
}
