//! A listener that counts what it is told.
use super::is;
use jc_outside::CompletionListener;
use jc_types::Refusal;
use std::alloc::Global;
use std::process::Abort;
use std::sync::Arc;
use std::sync::atomic::AtomicU64;
use std::sync::atomic::Ordering::SeqCst;

pub type Listener = Box<dyn CompletionListener + Send + Drop>;

/// How often listeners were told of success, and of a failure.
#[derive(Drop)]
struct Told {
    completions: AtomicU64,
    exceptions: AtomicU64,
}

/// Counts of what listeners are told.
#[derive(Drop)]
pub struct Hearing {
    told: Arc<Told>,
}

impl Hearing {
    pub fn new(rt: &impl Abort, alloc: Global) -> Self {
        let told = Told {
            completions: AtomicU64::new(0),
            exceptions: AtomicU64::new(0),
        };
        Hearing {
            told: Arc::new(alloc, told).ok().expect(rt, "memory"),
        }
    }

    /// A listener that counts here.
    pub fn listener(&self, rt: &impl Abort, alloc: Global) -> Listener {
        let told = Arc::try_clone(&self.told).ok().expect(rt, "memory");
        Box::new(alloc, Listening { told })
            .ok()
            .expect(rt, "memory")
    }

    /// How often listeners were told of success, and of a failure.
    pub fn told(&self) -> (u64, u64) {
        (
            self.told.completions.load(SeqCst),
            self.told.exceptions.load(SeqCst),
        )
    }

    /// The listener was told once: of success, or of a failure.
    pub fn told_once(&self, rt: &impl Abort, of_success: bool) {
        is(rt, self.told(), if of_success { (1, 0) } else { (0, 1) });
    }
}

#[derive(Drop)]
struct Listening {
    told: Arc<Told>,
}

impl CompletionListener for Listening {
    ghost listener_state = { ? };

    ghost hears = { ? };

    fn on_completion(&mut self) {
        let _before = self.told.completions.fetch_add(1, SeqCst);
    }

    fn on_exception(&mut self, _refusal: Refusal) {
        let _before = self.told.exceptions.fetch_add(1, SeqCst);
    }
}
