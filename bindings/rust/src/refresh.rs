//! Entries that are loaded again in the background, when they are old.
use crate::call::{self, Begun};
use crate::error::Error;
use crate::op::Op;
use crate::outside::{Loader, in_call};
use crate::step::{Call, Owner};
use crate::stripe::{Stripe, of_hash};
use std::any::Any;
use std::collections::VecDeque;
use std::convert::Infallible;
use std::hash::Hash;
use std::panic::{AssertUnwindSafe, catch_unwind, resume_unwind};
use std::sync::{Arc, Condvar, Mutex, MutexGuard};
use std::thread;
use std::time::Duration;

/// A reload, for an executor: see [`Builder::executor`](crate::Builder::executor).
pub type Job = Box<dyn FnOnce() + Send>;

pub(crate) type Executor = Arc<dyn Fn(Job) + Send + Sync>;

/// Has the key of this hash loaded again.
pub(crate) type Reload<K> = Box<dyn Fn(Arc<K>, u64) + Send + Sync>;

/// Who is told of a reload that has failed.
pub(crate) type OnRefreshError<K, E> = Arc<dyn Fn(&Arc<K>, &Error<E, Infallible>) + Send + Sync>;

/// Makes what reloads, for the stripes of a cache and its loader.
pub(crate) type Reloading<K, V, L> = fn(
    &Arc<[Stripe<K, V, <L as Loader<K, V>>::Error>]>,
    &Arc<L>,
    Executor,
    Option<OnRefreshError<K, <L as Loader<K, V>>::Error>>,
) -> Reload<K>;

/// What reloads by this executor. It keeps no cache, so a job of one that is gone does nothing.
pub(crate) fn reloading<K, V, L>(
    stripes: &Arc<[Stripe<K, V, L::Error>]>,
    loader: &Arc<L>,
    executor: Executor,
    tell: Option<OnRefreshError<K, L::Error>>,
) -> Reload<K>
where
    K: Eq + Hash + Send + Sync + 'static,
    V: Send + Sync + 'static,
    L: Loader<K, V> + Send + Sync + 'static,
    L::Error: Send + Sync + 'static,
{
    let (stripes, loader) = (Arc::downgrade(stripes), Arc::downgrade(loader));
    Box::new(move |key, hash| {
        let (stripes, loader, tell) = (stripes.clone(), loader.clone(), tell.clone());
        executor(Box::new(move || {
            if let (Some(stripes), Some(loader)) = (stripes.upgrade(), loader.upgrade()) {
                let failed = reload(of_hash(&stripes, hash), &*loader, &key, hash);
                if let (Some((error, _)), Some(tell)) = (&failed, tell) {
                    tell(&key, error);
                }
                if let Some((_, Some(panic))) = failed {
                    resume_unwind(panic);
                }
            }
        }));
    })
}

/// Why a reload has failed, and with which panic.
type Failed<E> = (Error<E, Infallible>, Option<Box<dyn Any + Send>>);

/// Loads a key again, and says how that has failed. If the key is reserved, or its stripe has no room, nothing is done; nor if the loader
/// finds nothing.
fn reload<K: Eq, V, L: Loader<K, V>>(
    stripe: &Stripe<K, V, L::Error>,
    loader: &L,
    key: &Arc<K>,
    hash: u64,
) -> Option<Failed<L::Error>> {
    let call = Call {
        key,
        hash,
        op: &Op::Reload,
        life: None,
        owner: Owner::ThisThread,
    };
    let Ok(Begun::Load(ticket)) = call::begin::<_, _, _, Infallible>(stripe, &call) else {
        return None;
    };
    let asked = ticket.ask();
    let loaded = catch_unwind(AssertUnwindSafe(|| in_call(|| loader.load(asked.key()))));
    let (ended, panic) = match loaded {
        Ok(loaded) => (asked.commit(loaded), None),
        Err(panic) => (asked.commit_panicked(), Some(panic)),
    };
    ended.err().map(|error| (error, panic))
}

const THREADS: usize = 4;
const IDLE: Duration = Duration::from_secs(10);
/// So many jobs may wait for a thread. Further ones are left to a later `get`.
const WAITING_MAX: usize = 1024;

/// The threads of a cache that run its jobs: up to four, which end when there is nothing to do.
#[derive(Default)]
struct Pool {
    state: Mutex<Jobs>,
    changed: Condvar,
}

#[derive(Default)]
struct Jobs {
    waiting: VecDeque<Job>,
    threads: usize,
    idle: usize,
}

impl Pool {
    fn state(&self) -> MutexGuard<'_, Jobs> {
        self.state.lock().expect("nobody panics with it")
    }

    fn run(self: &Arc<Self>, job: Job) {
        let mut state = self.state();
        if state.waiting.len() >= WAITING_MAX {
            return;
        }
        state.waiting.push_back(job);
        if state.idle >= state.waiting.len() {
            self.changed.notify_one();
        } else if state.threads < THREADS {
            let pool = self.clone();
            let named = thread::Builder::new().name("cadwrelch-refresh".to_string());
            if named.spawn(move || pool.work()).is_ok() {
                state.threads += 1;
            }
        }
    }

    /// Runs jobs. One that panics has failed, and no other.
    fn work(&self) {
        while let Some(job) = self.next() {
            let _ = catch_unwind(AssertUnwindSafe(job));
        }
    }

    /// None: the thread ends.
    fn next(&self) -> Option<Job> {
        let mut state = self.state();
        state.idle += 1;
        let (mut state, _timeout) = self
            .changed
            .wait_timeout_while(state, IDLE, |jobs| jobs.waiting.is_empty())
            .expect("nobody panics with it");
        state.idle -= 1;
        let job = state.waiting.pop_front();
        if job.is_none() {
            state.threads -= 1;
        }
        job
    }
}

/// An executor of the cache's own.
pub(crate) fn own_threads() -> Executor {
    let pool = Arc::new(Pool::default());
    Arc::new(move |job| pool.run(job))
}
