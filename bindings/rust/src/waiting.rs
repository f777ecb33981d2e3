//! Who waits for whom: condition variables, wakers, and a register of waiting threads that finds a deadlock before it happens.
use std::collections::{BTreeMap, HashMap};
use std::sync::atomic::{AtomicU64, Ordering::Relaxed};
use std::sync::{Condvar, Mutex, MutexGuard, OnceLock};
use std::task::Waker;

/// Those who wait for one thing. Who sleeps, and who is woken, is guarded by the mutex of a stripe.
#[derive(Default)]
pub(crate) struct Waiters {
    condvar: Condvar,
    state: Mutex<State>,
}

#[derive(Default)]
struct State {
    sleepers: usize,
    /// The first to wait is the first to be woken.
    wakers: BTreeMap<u64, Waker>,
    last: u64,
}

/// By which a future's waker is found again. None: it has none here.
pub(crate) type Seat = Option<u64>;

impl Waiters {
    fn state(&self) -> MutexGuard<'_, State> {
        self.state.lock().expect("nobody panics with it")
    }

    /// Sleeps until it is woken, or for no reason.
    pub(crate) fn sleep<'m, T>(&self, guard: MutexGuard<'m, T>) -> MutexGuard<'m, T> {
        self.state().sleepers += 1;
        let guard = self
            .condvar
            .wait(guard)
            .expect("a stripe's lock is poisoned");
        self.state().sleepers -= 1;
        guard
    }

    /// How many sleep.
    pub(crate) fn sleepers(&self) -> usize {
        self.state().sleepers
    }

    /// Keeps the waker of a future, instead of the one that it had, which is handed back, to be dropped with no lock held.
    pub(crate) fn keep(&self, seat: &mut Seat, waker: Waker) -> Option<Waker> {
        let mut state = self.state();
        let number = seat.unwrap_or(state.last + 1);
        state.last = state.last.max(number);
        *seat = Some(number);
        state.wakers.insert(number, waker)
    }

    /// Forgets the waker of a future that is gone, and hands it back, to be dropped with no lock held.
    pub(crate) fn forget(&self, seat: Seat) -> Option<Waker> {
        self.state().wakers.remove(&seat?)
    }

    /// Wakes all sleepers, and moves the wakers out: they are to be woken with no lock held. Says whether anyone slept.
    pub(crate) fn wake(&self, wakers: &mut Vec<Waker>) -> bool {
        let mut state = self.state();
        wakers.extend(std::mem::take(&mut state.wakers).into_values());
        if state.sleepers == 0 {
            return false;
        }
        self.condvar.notify_all();
        true
    }
}

/// The number that no thread has. A reservation of a call in phases is nobody's: who ends it may be any thread, so nobody is said to
/// wait for himself who waits for it.
pub(crate) const NOBODY: u64 = 0;

/// A number of the thread.
pub(crate) fn this_thread() -> u64 {
    static NEXT: AtomicU64 = AtomicU64::new(1);
    thread_local! {
        static NUMBER: u64 = NEXT.fetch_add(1, Relaxed);
    }
    NUMBER.with(|number| *number)
}

/// A reservation: the address of its stripe, and its number there.
pub(crate) type Reservation = (usize, u64);

struct Wait {
    owner: u64,
    reservation: Reservation,
}

/// Which thread waits for which. A thread is listed while it waits for a reservation that isn't over.
fn waits() -> MutexGuard<'static, HashMap<u64, Wait>> {
    static WAITS: OnceLock<Mutex<HashMap<u64, Wait>>> = OnceLock::new();
    let waits = WAITS.get_or_init(Mutex::default);
    waits.lock().expect("nobody panics with it")
}

/// Lists this thread as one that waits for another's reservation. False: they would wait for each other.
pub(crate) fn wait_for(owner: u64, reservation: Reservation) -> bool {
    let me = this_thread();
    let mut waits = waits();
    let mut thread = owner;
    loop {
        if thread == me {
            return false;
        }
        match waits.get(&thread) {
            Some(wait) => thread = wait.owner,
            None => break,
        }
    }
    waits.insert(me, Wait { owner, reservation });
    true
}

/// This thread waits no more.
pub(crate) fn wait_no_more() {
    waits().remove(&this_thread());
}

/// A reservation for which somebody waits is over.
pub(crate) fn is_over(reservation: Reservation) {
    waits().retain(|_, wait| wait.reservation != reservation);
}
