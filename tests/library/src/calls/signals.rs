//! Signals between threads, and a loader and a writer that wait for one.
use super::*;
use std::alloc::AllocError;
use std::sync::Arc;
use std::sync::atomic::AtomicBool;
use std::sync::atomic::Ordering::SeqCst;
use std::thread::yield_now;

/// How often a thread that waits for a signal looks for it before it gives up.
const TURNS: u64 = 1_000_000_000;

/// How often a thread that rests gives the processor to another one.
const REST: u64 = 1_000;

/// The code of a loader or a writer that has given up.
const GAVE_UP: u32 = 99;

/// Whether somebody who waits was asked, and whether all who wait may answer.
#[derive(Drop)]
struct Flags {
    asked: AtomicBool,
    raised: AtomicBool,
}

/// The signals that threads give each other.
#[derive(Drop)]
pub struct Signals {
    flags: Arc<Flags>,
}

impl Signals {
    pub fn new(alloc: Global) -> Result<Signals, AllocError> {
        let flags = Flags {
            asked: AtomicBool::new(false),
            raised: AtomicBool::new(false),
        };
        Ok(Signals {
            flags: Arc::new(alloc, flags)?,
        })
    }

    /// The same signals, for one more.
    pub fn again(&self, rt: &impl Abort) -> Signals {
        Signals {
            flags: Arc::try_clone(&self.flags).expect(rt, "memory"),
        }
    }

    /// Says that somebody was asked, and waits until he may answer.
    pub fn wait_as_asked(&self) -> Result<(), u32> {
        self.flags.asked.store(true, SeqCst);
        if is_seen(&self.flags.raised) {
            Ok(())
        } else {
            Err(GAVE_UP)
        }
    }

    /// Lets the loaders and writers that wait answer.
    pub fn raise(&self) {
        self.flags.raised.store(true, SeqCst);
    }

    /// Waits until a loader or a writer that waits was asked.
    pub fn wait_for_ask(&self, rt: &impl Abort) {
        assert!(rt; is_seen(&self.flags.asked), "nobody is asked");
    }
}

/// Waits until a flag is raised, and says whether it is.
fn is_seen(flag: &AtomicBool) -> bool {
    for _ in 0..TURNS {
        if flag.load(SeqCst) {
            return true;
        }
        yield_now();
    }
    false
}

/// Lets other threads go on for a while.
pub fn rest() {
    for _ in 0..REST {
        yield_now();
    }
}
