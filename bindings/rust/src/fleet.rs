//! Several instances of a service before one store: its engine announces each change, and each cache forgets that key.
//!
//! A [`Fleet`] listens to [`Announcements`] for a cache. What is promised is tested, not proved, but for the step that drops an entry:
//! each cached value is the store's, but for keys whose change wasn't announced here yet, or whose write of this cache isn't over; and
//! what begins after a change was announced is answered nothing older, by no entry and no load. If the announcements are lost, or silent
//! for [`beat`](FleetBuilder::beat) and [`patience`](FleetBuilder::patience), nothing is kept until they come again: each call asks the
//! store, or, with a [`grace`](FleetBuilder::grace), is answered at most so much older.
//!
//! It holds if all writes go through to the store, the loader reads what the engine has committed, and the process isn't stopped.
mod listener;

use crate::bytes::BytesCache;
use crate::cache::{Cache, CacheError};
use crate::invoke::Entry;
use crate::outside::{Loader, Writer};
use listener::{Listener, Shared};
use std::error::Error;
use std::fmt;
use std::hash::Hash;
use std::sync::Arc;
use std::thread::{self, JoinHandle};
use std::time::Duration;

/// What is wrong with announcements.
pub type Fault = Box<dyn Error + Send + Sync>;

/// What a cache has for whoever hears of changes in its store. None of these calls waits.
pub trait Invalidation<K>: Send + Sync {
    /// Forgets a key: see [`Cache::invalidate`].
    fn invalidate(&self, key: &K);

    /// Forgets all keys.
    fn invalidate_all(&self);

    /// Forgets all keys, and keeps nothing.
    fn suspend(&self);

    /// Forgets all keys, and keeps what comes from now on.
    fn resume(&self);
}

impl<K, V, L, W> Invalidation<K> for Cache<K, V, L, W>
where
    K: Eq + Hash + Send + Sync,
    V: Send + Sync,
    L: Loader<K, V> + Send + Sync,
    L::Error: Send + Sync,
    W: Writer<K, V> + Send + Sync,
{
    fn invalidate(&self, key: &K) {
        self.invalidate(key);
    }

    fn invalidate_all(&self) {
        self.invalidate_all();
    }

    fn suspend(&self) {
        self.suspend();
    }

    fn resume(&self) {
        self.resume();
    }
}

impl<L, W> Invalidation<Vec<u8>> for BytesCache<L, W>
where
    L: Loader<[u8], Vec<u8>> + Send + Sync,
    L::Error: Send + Sync,
    W: Writer<[u8], [u8]> + Send + Sync,
{
    fn invalidate(&self, key: &Vec<u8>) {
        self.invalidate(key);
    }

    fn invalidate_all(&self) {
        self.invalidate_all();
    }

    fn suspend(&self) {
        self.suspend();
    }

    fn resume(&self) {
        self.resume();
    }
}

/// The error of a writer that compares: it may say that somebody else has changed what a new value was made from.
pub trait Conflict {
    /// Whether that is why nothing was written.
    fn is_conflict(&self) -> bool;
}

/// [`Cache::invoke`], again while its writer finds a [`Conflict`], but at most so many times. Before each attempt but the first the key
/// is forgotten, so the processor sees what the store has.
///
/// # Errors
/// As [`Cache::invoke`]; a conflict after the last attempt.
pub fn invoke<K, V, L, W, T>(
    cache: &Cache<K, V, L, W>,
    key: &K,
    attempts: usize,
    mut processor: impl FnMut(&mut Entry<'_, K, V, L, W>) -> Result<T, CacheError<K, V, L, W>>,
) -> Result<T, CacheError<K, V, L, W>>
where
    K: Clone + Eq + Hash,
    L: Loader<K, V>,
    W: Writer<K, V>,
    W::Error: Conflict,
{
    let mut left = attempts;
    loop {
        left = left.saturating_sub(1);
        match cache.invoke(key.clone(), &mut processor) {
            Err(crate::Error::Writer(error, _)) if error.is_conflict() && left > 0 => {
                cache.invalidate(key);
            }
            ended => return ended,
        }
    }
}

/// What an engine announces.
#[derive(Clone, Debug, PartialEq, Eq)]
pub enum Told<K> {
    /// The store has another value of this key.
    Key(K),
    /// It isn't known which keys have changed.
    All,
}

/// Why a connection can't be made.
#[derive(Debug)]
pub enum OpenError {
    /// Something isn't as it has to be, as a missing privilege: it is no use to try again. The text says how it is mended.
    Setup(Fault),
    /// The engine can't be reached.
    Unreachable(Fault),
}

impl From<Fault> for OpenError {
    fn from(error: Fault) -> OpenError {
        OpenError::Unreachable(error)
    }
}

/// Where a fleet hears of changes: a connection to an engine. The fleet's thread calls it, but for the first [`open`](Self::open).
pub trait Announcements<K>: Send {
    /// Connects and subscribes, within about this time. Of each change that is committed after it has returned,
    /// [`wait`](Self::wait) tells, or fails.
    ///
    /// # Errors
    /// There is no connection.
    fn open(&mut self, patience: Duration) -> Result<(), OpenError>;

    /// Waits until something is announced, but no longer than this time, or until it is [woken](Self::waker). It returns what was
    /// announced, in order, or an empty list.
    ///
    /// # Errors
    /// The connection is lost.
    fn wait(&mut self, time: Duration) -> Result<Vec<Told<K>>, Fault>;

    /// Asks the engine for an answer on the way that announcements take. It doesn't wait for it.
    ///
    /// # Errors
    /// The connection is lost.
    fn probe(&mut self) -> Result<(), Fault>;

    /// Whether the last probe was answered, and all that was announced before the answer was returned by [`wait`](Self::wait).
    fn is_answered(&self) -> bool;

    /// Ends the connection, whatever its state. It may be called again.
    fn close(&mut self);

    /// What ends a [`wait`](Self::wait); any thread may call it. Without a method of its own nothing does, and
    /// [`catch_up`](Fleet::catch_up) and [`close`](Fleet::close) take until a wait has ended by itself.
    fn waker(&self) -> Box<dyn Fn() + Send + Sync> {
        Box::new(|| {})
    }
}

/// Whether changes are announced.
#[derive(Clone, Copy, Debug, PartialEq, Eq)]
pub enum FleetState {
    /// They are.
    Live,
    /// They aren't, and the cache still answers what it has, for the time of grace.
    Lost,
    /// They aren't: the cache keeps nothing.
    Suspended,
    /// The fleet was closed, or its thread has ended: the cache keeps nothing.
    Closed,
}

/// What a fleet has counted since it was made.
#[derive(Clone, Copy, Debug, Default, PartialEq, Eq)]
pub struct FleetStatistics {
    /// Keys that were announced.
    pub told: u64,
    /// Announcements of all keys.
    pub all: u64,
    /// Connections that were made.
    pub connections: u64,
    /// Connections that were lost.
    pub lost: u64,
}

type OnState = Box<dyn Fn(FleetState) + Send + Sync>;

/// Makes a [`Fleet`].
#[must_use]
pub struct FleetBuilder<K, C, A> {
    cache: Arc<C>,
    announcements: A,
    times: Times,
    on_state: OnState,
    on_told: Box<dyn Fn(&[Told<K>]) + Send + Sync>,
}

#[derive(Clone, Copy, Debug)]
struct Times {
    beat: Duration,
    patience: Duration,
    grace: Duration,
    retry: Duration,
}

impl<K, C, A> fmt::Debug for FleetBuilder<K, C, A> {
    fn fmt(&self, f: &mut fmt::Formatter<'_>) -> fmt::Result {
        let mut shown = f.debug_struct("FleetBuilder");
        shown.field("times", &self.times).finish_non_exhaustive()
    }
}

impl<K, C, A> FleetBuilder<K, C, A>
where
    K: Send + 'static,
    C: Invalidation<K> + 'static,
    A: Announcements<K> + 'static,
{
    /// How long between two probes of the connection; without it 0.5 seconds.
    pub fn beat(mut self, time: Duration) -> Self {
        self.times.beat = time;
        self
    }

    /// After how long a probe without an answer says that the connection is lost; without it 1.5 seconds. One that is silently dead is
    /// found after beat and patience.
    pub fn patience(mut self, time: Duration) -> Self {
        self.times.patience = time;
        self
    }

    /// How long after that the cache still answers what it has; without it, not at all.
    pub fn grace(mut self, time: Duration) -> Self {
        self.times.grace = time;
        self
    }

    /// How long between two attempts to connect; without it 0.25 seconds.
    pub fn retry(mut self, time: Duration) -> Self {
        self.times.retry = time;
        self
    }

    /// Who is told each state, on the fleet's thread but for the first. If it panics, nothing follows from that.
    pub fn on_state(mut self, tell: impl Fn(FleetState) + Send + Sync + 'static) -> Self {
        self.on_state = Box::new(tell);
        self
    }

    /// Who is told what was announced, once it is forgotten, on the fleet's thread. If it panics, nothing follows from that.
    pub fn on_told(mut self, tell: impl Fn(&[Told<K>]) + Send + Sync + 'static) -> Self {
        self.on_told = Box::new(tell);
        self
    }

    /// Connects, and listens on a thread. If the engine can't be reached, the cache is suspended and the fleet goes on trying; it may be
    /// used meanwhile.
    ///
    /// # Errors
    /// Something isn't as it has to be ([`OpenError::Setup`]), or there is no thread. The cache stays suspended.
    pub fn spawn(self) -> Result<Fleet, Fault> {
        let shared = Arc::new(Shared::new(self.announcements.waker(), self.on_state));
        let cache: Arc<dyn Invalidation<K>> = self.cache;
        let mut listener = Listener::new(
            cache.clone(),
            self.announcements,
            self.times,
            self.on_told,
            shared.clone(),
        );
        cache.suspend();
        listener.open_first()?;
        let named = thread::Builder::new().name("cadwrelch-fleet".to_string());
        let thread = match named.spawn(move || listener.run()) {
            Ok(thread) => thread,
            Err(error) => {
                cache.suspend();
                return Err(error.into());
            }
        };
        Ok(Fleet {
            shared,
            forget: Box::new(move || cache.invalidate_all()),
            thread: Some(thread),
        })
    }
}

/// Has a cache forget what others have changed in its store: a thread that listens to [`Announcements`].
///
/// Dropped, it is [closed](Fleet::close).
#[must_use]
pub struct Fleet {
    shared: Arc<Shared>,
    forget: Box<dyn Fn() + Send + Sync>,
    thread: Option<JoinHandle<()>>,
}

impl fmt::Debug for Fleet {
    fn fmt(&self, f: &mut fmt::Formatter<'_>) -> fmt::Result {
        f.debug_struct("Fleet")
            .field("state", &self.state())
            .field("stats", &self.stats())
            .finish_non_exhaustive()
    }
}

impl Fleet {
    /// Begins to make a fleet for a cache.
    pub fn builder<K, C, A>(cache: Arc<C>, announcements: A) -> FleetBuilder<K, C, A> {
        FleetBuilder {
            cache,
            announcements,
            times: Times {
                beat: Duration::from_millis(500),
                patience: Duration::from_millis(1500),
                grace: Duration::ZERO,
                retry: Duration::from_millis(250),
            },
            on_state: Box::new(|_| {}),
            on_told: Box::new(|_| {}),
        }
    }

    /// The same with all times as they are without their methods.
    ///
    /// # Errors
    /// As [`FleetBuilder::spawn`].
    pub fn spawn<K, C, A>(cache: Arc<C>, announcements: A) -> Result<Fleet, Fault>
    where
        K: Send + 'static,
        C: Invalidation<K> + 'static,
        A: Announcements<K> + 'static,
    {
        Fleet::builder(cache, announcements).spawn()
    }

    /// Whether changes are announced.
    pub fn state(&self) -> FleetState {
        self.shared.state()
    }

    /// Whether they are announced at present.
    pub fn is_live(&self) -> bool {
        self.state() == FleetState::Live
    }

    /// Why the last connection was lost, or can't be made. None if it stands.
    pub fn error(&self) -> Option<String> {
        self.shared.error()
    }

    /// What was counted.
    pub fn stats(&self) -> FleetStatistics {
        self.shared.statistics()
    }

    /// Waits until changes are announced, but no longer than this time, and says whether they are.
    pub fn wait_until_live(&self, time: Duration) -> bool {
        self.shared.wait_until_live(time)
    }

    /// Waits until what was committed before this call is forgotten here, but no longer than this time, and says whether it is. So who
    /// was told of a write by the one who made it sees it. It is one round trip.
    pub fn catch_up(&self, time: Duration) -> bool {
        match self.shared.catch_up(time) {
            Some(is_done) => is_done,
            None => {
                // Nothing is kept; but a load that is under way may have read before.
                (self.forget)();
                true
            }
        }
    }

    /// Ends the thread, and waits for that. The cache keeps nothing from now on, since it hears of nothing.
    pub fn close(self) {
        drop(self);
    }
}

impl Drop for Fleet {
    fn drop(&mut self) {
        self.shared.end();
        if let Some(thread) = self.thread.take() {
            if thread.thread().id() != thread::current().id() {
                let _ = thread.join();
            }
        }
    }
}
