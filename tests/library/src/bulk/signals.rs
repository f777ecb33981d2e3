//! Signals between two threads.
use super::*;
use std::alloc::AllocError;
use std::sync::Arc;
use std::sync::atomic::AtomicBool;
use std::sync::atomic::Ordering::SeqCst;
use std::thread::yield_now;

/// How often a thread that waits for a signal looks for it before it gives up.
const TURNS: u64 = 1_000_000_000;

/// Whether the first of two and whether the second has come so far.
#[derive(Drop)]
struct Flags {
    first: AtomicBool,
    second: AtomicBool,
}

/// The signals that two threads give each other.
#[derive(Drop)]
pub struct Signals {
    flags: Arc<Flags>,
}

/// Waits until a flag is raised, and says whether it is.
fn is_raised(flag: &AtomicBool) -> bool {
    for _ in 0..TURNS {
        if flag.load(SeqCst) {
            return true;
        }
        yield_now();
    }
    false
}

impl Signals {
    pub fn new(alloc: Global) -> Result<Signals, AllocError> {
        let flags = Flags {
            first: AtomicBool::new(false),
            second: AtomicBool::new(false),
        };
        Ok(Signals {
            flags: Arc::new(alloc, flags)?,
        })
    }

    /// A second handle of them.
    pub fn share(&self, rt: &impl Abort) -> Signals {
        Signals {
            flags: Arc::try_clone(&self.flags).expect(rt, "memory"),
        }
    }

    /// The first has come so far.
    pub fn raise_first(&self) {
        self.flags.first.store(true, SeqCst);
    }

    /// Waits for the first.
    pub fn wait_for_first(&self, rt: &impl Abort) {
        assert!(rt; is_raised(&self.flags.first), "the first hasn't come");
    }

    /// Waits for the second.
    pub fn wait_for_second(&self, rt: &impl Abort) {
        assert!(rt; is_raised(&self.flags.second), "the second hasn't come");
    }

    /// One of the two says that it has come so far, and waits for the other. It says whether that one has come.
    pub fn meet(&self, is_first: bool) -> bool {
        let (own, other) = if is_first {
            (&self.flags.first, &self.flags.second)
        } else {
            (&self.flags.second, &self.flags.first)
        };
        own.store(true, SeqCst);
        is_raised(other)
    }
}
