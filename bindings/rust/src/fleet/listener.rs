//! The thread of a fleet, and what it shares with those who ask for its state.
use super::{
    Announcements, Fault, FleetState, FleetStatistics, Invalidation, OnState, OpenError, Times,
    Told,
};
use std::panic::{AssertUnwindSafe, catch_unwind};
use std::sync::{Arc, Condvar, Mutex, MutexGuard};
use std::thread;
use std::time::{Duration, Instant};

/// What whoever asks sees of the thread.
pub(super) struct Shared {
    inner: Mutex<Inner>,
    changed: Condvar,
    wake: Box<dyn Fn() + Send + Sync>,
    on_state: OnState,
}

struct Inner {
    state: FleetState,
    error: Option<String>,
    counts: FleetStatistics,
    is_ending: bool,
    /// How many have asked to catch up, and how many of them have.
    asked: u64,
    answered: u64,
}

/// Says something to the user, of whose panics nothing follows.
fn say(tell: impl FnOnce()) {
    let _ = catch_unwind(AssertUnwindSafe(tell));
}

impl Shared {
    pub(super) fn new(wake: Box<dyn Fn() + Send + Sync>, on_state: OnState) -> Shared {
        Shared {
            inner: Mutex::new(Inner {
                state: FleetState::Suspended,
                error: None,
                counts: FleetStatistics::default(),
                is_ending: false,
                asked: 0,
                answered: 0,
            }),
            changed: Condvar::new(),
            wake,
            on_state,
        }
    }

    fn inner(&self) -> MutexGuard<'_, Inner> {
        self.inner.lock().expect("nobody panics with it")
    }

    pub(super) fn state(&self) -> FleetState {
        self.inner().state
    }

    pub(super) fn error(&self) -> Option<String> {
        self.inner().error.clone()
    }

    pub(super) fn statistics(&self) -> FleetStatistics {
        self.inner().counts
    }

    fn wait_while(&self, time: Duration, is_not: impl Fn(&Inner) -> bool) -> bool {
        let waited = self
            .changed
            .wait_timeout_while(self.inner(), time, |inner| is_not(inner));
        !waited.expect("nobody panics with it").1.timed_out()
    }

    pub(super) fn wait_until_live(&self, time: Duration) -> bool {
        let is_pending =
            |inner: &Inner| !matches!(inner.state, FleetState::Live | FleetState::Closed);
        self.wait_while(time, is_pending) && self.state() == FleetState::Live
    }

    /// None: nothing is kept.
    pub(super) fn catch_up(&self, time: Duration) -> Option<bool> {
        let mut inner = self.inner();
        if !matches!(inner.state, FleetState::Live | FleetState::Lost) {
            return None;
        }
        inner.asked += 1;
        let own = inner.asked;
        drop(inner);
        (self.wake)();
        Some(self.wait_while(time, |inner| inner.answered < own))
    }

    pub(super) fn end(&self) {
        self.inner().is_ending = true;
        self.changed.notify_all();
        (self.wake)();
    }

    fn is_ending(&self) -> bool {
        self.inner().is_ending
    }

    /// How many have asked to catch up, if there are some that haven't been answered.
    fn asked(&self) -> (u64, bool) {
        let inner = self.inner();
        (inner.asked, inner.asked > inner.answered)
    }

    /// So many of those who have asked have caught up.
    fn answer(&self, asked: u64) {
        self.inner().answered = asked;
        self.changed.notify_all();
    }

    /// From now on it is so, and the cache with it: both change before anybody sees it.
    fn become_state(&self, state: FleetState, change: impl FnOnce()) {
        let mut inner = self.inner();
        change();
        inner.state = state;
        match state {
            FleetState::Live => {
                inner.error = None;
                inner.counts.connections += 1;
                inner.answered = inner.asked;
            }
            FleetState::Lost => {}
            FleetState::Suspended | FleetState::Closed => inner.answered = inner.asked,
        }
        drop(inner);
        self.changed.notify_all();
        say(|| (self.on_state)(state));
    }
}

/// Listens to announcements.
pub(super) struct Listener<K, A> {
    cache: Arc<dyn Invalidation<K>>,
    source: A,
    times: Times,
    on_told: Box<dyn Fn(&[Told<K>]) + Send + Sync>,
    shared: Arc<Shared>,
}

impl<K: Send + 'static, A: Announcements<K>> Listener<K, A> {
    pub(super) fn new(
        cache: Arc<dyn Invalidation<K>>,
        source: A,
        times: Times,
        on_told: Box<dyn Fn(&[Told<K>]) + Send + Sync>,
        shared: Arc<Shared>,
    ) -> Self {
        Listener {
            cache,
            source,
            times,
            on_told,
            shared,
        }
    }

    /// The first attempt to connect, by whoever makes the fleet.
    pub(super) fn open_first(&mut self) -> Result<(), Fault> {
        match self.open() {
            Err(OpenError::Setup(error)) => {
                self.source.close();
                Err(error)
            }
            Err(OpenError::Unreachable(error)) => {
                self.lose(&*error);
                Ok(())
            }
            Ok(()) => Ok(()),
        }
    }

    /// Subscribes, and only then lets the cache keep what is read.
    fn open(&mut self) -> Result<(), OpenError> {
        self.source.open(self.times.patience)?;
        let cache = &self.cache;
        self.shared
            .become_state(FleetState::Live, || cache.resume());
        Ok(())
    }

    /// Connects and listens until the fleet is closed. Whatever ends the thread, the cache is suspended.
    pub(super) fn run(mut self) {
        while !self.shared.is_ending() {
            let listened = catch_unwind(AssertUnwindSafe(|| self.connect_and_listen()));
            match listened {
                Ok(Ok(())) => {}
                Ok(Err(error)) => self.lose(&*error),
                Err(_) => self.lose(&*Fault::from("the announcements panicked")),
            }
            let retry = self.times.retry;
            self.shared.wait_while(retry, |inner| !inner.is_ending);
        }
        self.close_source();
        let cache = &self.cache;
        self.shared
            .become_state(FleetState::Closed, || cache.suspend());
    }

    fn connect_and_listen(&mut self) -> Result<(), Fault> {
        if self.shared.state() != FleetState::Live {
            self.open().map_err(|error| match error {
                OpenError::Setup(error) | OpenError::Unreachable(error) => error,
            })?;
        }
        self.listen()
    }

    fn close_source(&mut self) {
        say(|| self.source.close());
    }

    /// The connection is lost, or can't be made.
    fn lose(&mut self, error: &dyn std::fmt::Display) {
        let mut inner = self.shared.inner();
        inner.error = Some(error.to_string());
        let was_live = inner.state == FleetState::Live;
        inner.counts.lost += u64::from(was_live);
        drop(inner);
        if was_live {
            if self.times.grace.is_zero() {
                let cache = &self.cache;
                self.shared
                    .become_state(FleetState::Suspended, || cache.suspend());
            } else {
                self.shared.become_state(FleetState::Lost, || {});
                self.suspend_after_grace();
            }
        }
        self.close_source();
    }

    /// A connection may take longer to make than the grace lasts, so a thread of its own looks after that.
    fn suspend_after_grace(&self) {
        let (cache, shared, grace) = (self.cache.clone(), self.shared.clone(), self.times.grace);
        let lost = shared.statistics().lost;
        let is_lost =
            move |inner: &Inner| inner.state == FleetState::Lost && inner.counts.lost == lost;
        let wait = move || {
            if !shared.wait_while(grace, is_lost) {
                shared.suspend_if(is_lost, &*cache);
            }
        };
        if thread::Builder::new().spawn(wait).is_err() {
            let cache = &self.cache;
            self.shared
                .become_state(FleetState::Suspended, || cache.suspend());
        }
    }

    /// Handles what is announced, and probes the connection. It returns if the fleet is closed.
    fn listen(&mut self) -> Result<(), Fault> {
        let Times { beat, patience, .. } = self.times;
        let mut due = Instant::now() + beat;
        let mut probe: Option<(Instant, u64)> = None;
        while !self.shared.is_ending() {
            let limit = probe.map_or(due, |(sent, _)| sent + patience);
            let time = limit.saturating_duration_since(Instant::now()).min(beat);
            let told = self.source.wait(time)?;
            self.handle(told);
            let now = Instant::now();
            let (asked, is_asked) = self.shared.asked();
            match probe {
                None if is_asked || now >= due => {
                    self.source.probe()?;
                    probe = Some((now, asked));
                }
                None => {}
                Some((_, asked)) if self.source.is_answered() => {
                    self.shared.answer(asked);
                    (probe, due) = (None, now + beat);
                }
                Some((sent, _)) if now >= sent + patience => {
                    return Err(format!("no answer for {patience:?}").into());
                }
                Some(_) => {}
            }
        }
        Ok(())
    }

    fn handle(&mut self, told: Vec<Told<K>>) {
        if told.is_empty() {
            return;
        }
        let all = told.iter().filter(|it| matches!(it, Told::All)).count();
        if all > 0 {
            self.cache.invalidate_all();
        }
        for told in told.iter().filter(|_| all == 0) {
            if let Told::Key(key) = told {
                self.cache.invalidate(key);
            }
        }
        let mut inner = self.shared.inner();
        inner.counts.all += all as u64;
        inner.counts.told += (told.len() - all) as u64;
        drop(inner);
        say(|| (self.on_told)(&told));
    }
}

impl Shared {
    /// Suspends a cache, unless something else has come since.
    fn suspend_if<K>(&self, is_so: impl Fn(&Inner) -> bool, cache: &dyn Invalidation<K>) {
        let mut inner = self.inner();
        if !is_so(&inner) {
            return;
        }
        cache.suspend();
        inner.state = FleetState::Suspended;
        inner.answered = inner.asked;
        drop(inner);
        self.changed.notify_all();
        say(|| (self.on_state)(FleetState::Suspended));
    }
}
