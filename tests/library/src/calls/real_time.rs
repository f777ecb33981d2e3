//! The order of calls in real time: when each call began and returned, by a clock that all threads share, and in which order the
//! histories have them.
use super::histories::events;
use super::*;
use jc_cache::ClosedStripe;
use jc_model::Event;
use jc_types::Caller;
use std::sync::Mutex;
use std::sync::atomic::AtomicU64;
use std::sync::atomic::Ordering::SeqCst;

/// When a call began and when it had returned.
#[derive(Clone, Copy)]
struct Span {
    caller: Caller,
    began: u64,
    returned: u64,
}

/// A clock, which goes on at each look at it, and when calls began and returned by it.
#[derive(Drop)]
pub struct Times {
    clock: AtomicU64,
    spans: Mutex<Vec<Span>>,
}

impl Times {
    /// A clock at its first time, and no calls.
    pub fn new(alloc: Global) -> Self {
        Times {
            clock: AtomicU64::new(0),
            spans: Mutex::new(Vec::new(alloc)),
        }
    }

    /// The time. No two looks find the same.
    pub fn now(&self) -> u64 {
        self.clock.fetch_add(1, SeqCst)
    }

    /// Notes a call that began at that time and has just returned.
    pub fn note<R: Abort + Wait>(&self, rt: &R, caller: Caller, began: u64) {
        let span = Span {
            caller,
            began,
            returned: self.now(),
        };
        self.spans.lock(rt).push(span).ok().expect(rt, "memory");
    }

    /// When the steps of a stripe began and returned, in the order of its history.
    fn steps_of<R: Abort + Wait>(&self, rt: &R, alloc: Global, stripe: &ClosedStripe) -> Vec<Span> {
        let noted = self.spans.lock(rt);
        let mut steps = Vec::new(alloc);
        for event in &events(alloc, stripe).expect(rt, "memory") {
            if let Event::Step { caller, .. } = event {
                let span = span_of(&noted, *caller).expect(rt, "a call that was noted");
                steps.push(span).ok().expect(rt, "memory");
            }
        }
        steps
    }
}

/// When this caller's call began and returned, if that was noted.
fn span_of(noted: &[Span], caller: Caller) -> Option<Span> {
    for span in noted {
        if span.caller == caller {
            return Some(*span);
        }
    }
    None
}

/// No step returned before one that is earlier in the history began.
fn are_in_order(rt: &impl Abort, steps: &[Span]) {
    let mut last = 0;
    for step in steps {
        assert!(rt;
            last <= step.returned,
            "a step is later than one that began after it had returned"
        );
        last = last.max(step.began);
    }
}

/// How many of these steps began after this one had returned, and are another session's.
fn count_after(first: &Span, steps: &[Span]) -> u64 {
    let mut count = 0u64;
    for step in steps {
        if step.caller.session != first.caller.session && first.returned < step.began {
            count = count.wrapping_add(1);
        }
    }
    count
}

/// The steps of each stripe are in the order of real time. Some began after its first one had returned, and are another session's.
pub fn are_in_real_time<R: Abort + Wait>(
    rt: &R,
    alloc: Global,
    times: &Times,
    stripes: &[ClosedStripe],
) {
    for stripe in stripes {
        let steps = times.steps_of(rt, alloc, stripe);
        are_in_order(rt, &steps);
        let first = steps.first().expect(rt, "a step");
        assert!(rt;
            count_after(first, &steps) > 0,
            "no call began after another session's"
        );
    }
}

/// Random calls of four sessions, each on a thread of its own, and again after all have returned. A call that returned before
/// another one began has the lower place, if both are of one stripe. That is seen of the calls of such runs: no contract says it.
pub const ROUNDS: &str = "\
open 2 3 4096 read write
random
random
random
steps in real time
";
