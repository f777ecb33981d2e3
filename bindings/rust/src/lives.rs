//! When entries expire: the times of a cache, and the life of each entry.
//!
//! An entry has three deadlines: its own, of the policy or of the call that brought its value; that of the cache's time to live; and
//! that of its time to idle. It has expired once the first of them has come.
use crate::expiry::Expiry;
use crate::refresh::Reload;
use crate::table::Slot;
use std::fmt;
use std::panic::{RefUnwindSafe, UnwindSafe};
use std::sync::atomic::{AtomicBool, Ordering::Relaxed};
use std::sync::{Arc, OnceLock};
use std::time::{Duration, Instant};

/// Nanoseconds of a cache's clock.
pub(crate) type Nanos = u64;

const NEVER: Nanos = Nanos::MAX;

fn nanos(time: Duration) -> Nanos {
    Nanos::try_from(time.as_nanos()).unwrap_or(NEVER)
}

type Policy<K, V> = Arc<dyn Expiry<K, V> + Send + Sync>;
type Clock = Arc<dyn Fn() -> Duration + Send + Sync>;

/// What a builder is told of times.
pub(crate) struct Times<K, V> {
    pub live: Option<Duration>,
    pub idle: Option<Duration>,
    pub refresh: Option<Duration>,
    pub absent: Option<Duration>,
    pub policy: Option<Policy<K, V>>,
    pub clock: Option<Clock>,
}

impl<K, V> Default for Times<K, V> {
    fn default() -> Self {
        Times {
            live: None,
            idle: None,
            refresh: None,
            absent: None,
            policy: None,
            clock: None,
        }
    }
}

impl<K, V> Clone for Times<K, V> {
    fn clone(&self) -> Self {
        Times {
            live: self.live,
            idle: self.idle,
            refresh: self.refresh,
            absent: self.absent,
            policy: self.policy.clone(),
            clock: self.clock.clone(),
        }
    }
}

impl<K, V> fmt::Debug for Times<K, V> {
    fn fmt(&self, f: &mut fmt::Formatter<'_>) -> fmt::Result {
        f.debug_struct("Times")
            .field("live", &self.live)
            .field("idle", &self.idle)
            .field("refresh", &self.refresh)
            .field("absent", &self.absent)
            .field("has_policy", &self.policy.is_some())
            .finish_non_exhaustive()
    }
}

/// When an entry expires.
#[derive(Clone, Copy, Debug)]
pub(crate) struct Life {
    own: Nanos,
    live: Nanos,
    idle: Nanos,
    /// When it is to be loaded again.
    old: Nanos,
}

impl Life {
    pub(crate) const ENDLESS: Life = Life {
        own: NEVER,
        live: NEVER,
        idle: NEVER,
        old: NEVER,
    };

    /// Of an entry that nobody is to see, also while the clock isn't read. A step that gives it no value changes nothing of that.
    pub(crate) const OVER: Life = Life {
        own: 0,
        live: 0,
        idle: 0,
        old: NEVER,
    };

    #[inline]
    pub(crate) fn is_over(&self, now: Nanos) -> bool {
        now >= self.own.min(self.live).min(self.idle)
    }

    /// What is left until the entry's own deadline.
    pub(crate) fn left(&self, now: Nanos) -> Option<Duration> {
        (self.own != NEVER).then(|| Duration::from_nanos(self.own.saturating_sub(now)))
    }
}

/// What a step does for the life of its key's entry: what the policy is asked.
#[derive(Clone, Copy, Debug, PartialEq, Eq)]
pub(crate) enum Question {
    Create,
    Update,
    Read,
}

/// What the policy is asked, but for the key.
pub(crate) struct Asking<V> {
    pub question: Question,
    pub value: Arc<V>,
    pub left: Option<Duration>,
}

/// What the policy has said.
#[derive(Clone, Copy, Debug)]
pub(crate) enum Said {
    /// The entry's own deadline stays.
    Stays,
    /// From now on it lives so long; None: for ever.
    Lives(Option<Duration>),
}

/// What becomes of the life of an entry by a step.
#[derive(Clone, Copy)]
pub(crate) struct Renewal {
    question: Option<Question>,
    /// Its own deadline; None: as before.
    own: Option<Nanos>,
    live: Nanos,
    idle: Nanos,
    old: Nanos,
}

impl Renewal {
    /// A value that comes in lives for ever, and nothing else counts.
    pub(crate) const NONE: Renewal = Renewal {
        question: None,
        own: Some(NEVER),
        live: NEVER,
        idle: NEVER,
        old: NEVER,
    };

    /// The life of an entry after a step, by which it has got a value or not.
    #[inline]
    pub(crate) fn renew(&self, life: &mut Life, is_kept: bool) {
        if is_kept {
            let before = match self.question {
                Some(Question::Update) => life.own,
                _ => NEVER,
            };
            *life = Life {
                own: self.own.unwrap_or(before),
                live: self.live,
                idle: self.idle,
                old: self.old,
            };
        } else if self.question == Some(Question::Read) {
            life.own = self.own.unwrap_or(life.own);
            life.idle = self.idle;
        }
    }
}

/// The times of a cache.
pub(crate) struct Lives<K, V> {
    /// Whether any entry may expire. While none can, the clock isn't read.
    is_on: AtomicBool,
    live: Option<Nanos>,
    idle: Option<Nanos>,
    refresh: Option<Nanos>,
    absent: Option<Nanos>,
    policy: Option<Policy<K, V>>,
    clock: Clock,
    /// Loads an old entry again, once the cache has set it.
    reload: OnceLock<Reload<K>>,
}

// Policy and clock are called with nothing half done.
impl<K, V> UnwindSafe for Lives<K, V> {}
impl<K, V> RefUnwindSafe for Lives<K, V> {}

impl<K, V> Lives<K, V> {
    pub(crate) fn new(times: Times<K, V>) -> Self {
        let set = [times.live, times.idle, times.refresh, times.absent];
        let is_on = set.iter().any(Option::is_some) || times.policy.is_some();
        Lives {
            is_on: is_on.into(),
            live: times.live.map(nanos),
            idle: times.idle.map(nanos),
            refresh: times.refresh.map(nanos),
            absent: times.absent.map(nanos),
            reload: OnceLock::new(),
            policy: times.policy,
            clock: times.clock.unwrap_or_else(|| {
                let start = Instant::now();
                Arc::new(move || start.elapsed())
            }),
        }
    }

    #[inline]
    pub(crate) fn is_on(&self) -> bool {
        self.is_on.load(Relaxed)
    }

    /// From now on entries may expire, since a value comes that has a life of its own.
    pub(crate) fn turn_on(&self) {
        self.is_on.store(true, Relaxed);
    }

    /// The time; 0 while no entry can expire. It is read with no lock held.
    #[inline]
    pub(crate) fn now(&self) -> Nanos {
        if self.is_on() {
            nanos((self.clock)()).min(NEVER - 1)
        } else {
            0
        }
    }

    /// Whether the policy is to be asked. A value with a life of its own isn't asked for when it comes in.
    pub(crate) fn asks(&self, question: Question, given: Option<Duration>) -> bool {
        self.policy.is_some() && (question == Question::Read || given.is_none())
    }

    /// Asks the policy, with no lock held.
    pub(crate) fn ask(&self, key: &K, asking: &Asking<V>) -> Said {
        let Some(policy) = &self.policy else {
            return Said::Stays;
        };
        let (value, left) = (&*asking.value, asking.left);
        match asking.question {
            Question::Create => Said::Lives(policy.after_create(key, value)),
            Question::Update => Said::changed(left, policy.after_update(key, value, left)),
            Question::Read => Said::changed(left, policy.after_read(key, value, left)),
        }
    }

    /// What becomes of the life of an entry by a step, of which the policy said this, if it was asked.
    pub(crate) fn renewal(
        &self,
        question: Option<Question>,
        given: Option<Duration>,
        said: Option<Said>,
        now: Nanos,
    ) -> Renewal {
        if !self.is_on() {
            return Renewal::NONE;
        }
        let after = |time: Option<Nanos>| time.map_or(NEVER, |time| now.saturating_add(time));
        let is_read = question == Some(Question::Read);
        let (said, live) = match given {
            Some(_) if !is_read => (Said::Lives(given), NEVER),
            _ if is_read => (said.unwrap_or(Said::Stays), NEVER),
            _ => (said.unwrap_or(Said::Lives(None)), after(self.live)),
        };
        Renewal {
            question,
            own: match said {
                Said::Stays => None,
                Said::Lives(time) => Some(after(time.map(nanos))),
            },
            live,
            idle: after(self.idle),
            old: after(self.refresh),
        }
    }

    /// Whether it is remembered that a `get` has found nothing.
    pub(crate) fn remembers(&self) -> bool {
        self.absent.is_some()
    }

    /// The life of an entry that says so.
    pub(crate) fn absence(&self, now: Nanos) -> Renewal {
        Renewal {
            own: self.absent.map(|time| now.saturating_add(time)),
            ..Renewal::NONE
        }
    }

    /// The key of an entry that is to be loaded again, since a `get` has found it old. Until it is old once more, no other `get` has it
    /// loaded.
    #[inline]
    pub(crate) fn claim<E>(&self, slot: &mut Slot<K, V, E>, now: Nanos) -> Option<Arc<K>> {
        let refresh = self.refresh?;
        if now < slot.life.old || !slot.is_cached(now) {
            return None;
        }
        slot.life.old = now.saturating_add(refresh);
        Some(slot.key().clone())
    }

    /// Has a key that was claimed loaded again, with no lock held.
    #[inline]
    pub(crate) fn reload(&self, key: Option<Arc<K>>, hash: u64) {
        if let (Some(key), Some(reload)) = (key, self.reload.get()) {
            reload(key, hash);
        }
    }

    /// From now on old entries are loaded again.
    pub(crate) fn set_reload(&self, reload: Reload<K>) {
        let _ = self.reload.set(reload);
    }
}

impl Said {
    /// A deadline that stays is kept to the nanosecond.
    fn changed(left: Option<Duration>, said: Option<Duration>) -> Said {
        if said == left {
            Said::Stays
        } else {
            Said::Lives(said)
        }
    }
}
