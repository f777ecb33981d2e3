//! One stripe: a desk and its table under a mutex, the last phases of calls, and who waits. First phases are in `first`. Of the user's,
//! only whether keys are equal is asked while the mutex is held.
use crate::at::Name;
use crate::core::{self, Shape, Statistics, Ticket};
use crate::error::Error;
use crate::lives::{Asking, Lives, Nanos, Renewal};
use crate::op::Reply;
use crate::outside::in_call;
use crate::side::Side;
use crate::step::{Answer, Blocked, Fault, Out, Stop};
use crate::table::{Failure, Fate, Flight, Leavings};
use crate::waiting::{self, Seat, Waiters};
use std::panic::{AssertUnwindSafe, RefUnwindSafe, UnwindSafe, catch_unwind, resume_unwind};
use std::sync::atomic::Ordering::Relaxed;
use std::sync::{Arc, Mutex, MutexGuard};
use std::task::Waker;

/// How many slots are swept at a time with the lock held.
const SWEPT_AT_ONCE: usize = 64;

/// What a joiner is told: None: the load isn't over. Some of None: it was withdrawn.
type Picked<V, E> = Option<Option<Result<Reply<V>, Failure<E>>>>;

/// Who is told what was evicted.
pub(crate) type Listener<K, V> = Arc<dyn Fn(&Arc<K>, &Arc<V>) + Send + Sync>;

pub(crate) struct Stripe<K, V, E> {
    side: Mutex<Side<K, V, E>>,
    /// Those who wait for any commit, withdrawal or pick-up.
    room: Waiters,
    pub has_read_through: bool,
    pub has_write_through: bool,
    listener: Option<Listener<K, V>>,
    pub lives: Arc<Lives<K, V>>,
    pub name: Name<K>,
}

// A listener is called with nothing half done, and all else is under a mutex.
impl<K, V, E> UnwindSafe for Stripe<K, V, E> {}
impl<K, V, E> RefUnwindSafe for Stripe<K, V, E> {}

/// The stripe of a hash. The table of a stripe has its buckets by the lowest bits, and its tags by the highest.
pub(crate) fn of_hash<K, V, E>(stripes: &[Stripe<K, V, E>], hash: u64) -> &Stripe<K, V, E> {
    &stripes[(hash >> 32) as usize % stripes.len()]
}

impl<K, V, E> Stripe<K, V, E> {
    pub(crate) fn open(
        shape: &Shape,
        lives: Arc<Lives<K, V>>,
        listener: Option<Listener<K, V>>,
        name: Name<K>,
    ) -> Result<Self, core::Code> {
        Ok(Stripe {
            side: Mutex::new(Side::open(shape, lives.remembers())?),
            room: Waiters::default(),
            has_read_through: shape.read_through,
            has_write_through: shape.write_through,
            listener,
            lives,
            name,
        })
    }

    pub(crate) fn lock(&self) -> MutexGuard<'_, Side<K, V, E>> {
        self.side.lock().expect("a stripe's lock is poisoned")
    }

    /// Tells who listens what was evicted, with no lock held.
    #[inline]
    pub(crate) fn tell(&self, leavings: &Leavings<K, V, E>) {
        let Some((key, entry)) = &leavings.evicted else {
            return;
        };
        if let (Some(listener), Some(value)) = (&self.listener, &entry.value) {
            in_call(|| listener(key, value));
        }
    }

    /// The error of a call of this key that has stopped there.
    #[cold]
    #[inline(never)]
    pub(crate) fn stopped<W>(&self, stop: Stop, key: &K) -> Error<E, W> {
        stop.at(self.name.at(Some(key)))
    }

    fn reservation(&self, flight: &Flight<V, E>) -> waiting::Reservation {
        (std::ptr::from_ref(self).addr(), flight.number)
    }

    /// The last phase of a call that has asked.
    pub(crate) fn commit(
        &self,
        out: &Out<K, V, E>,
        answer: &Answer<V, E>,
    ) -> Result<Reply<V>, Fault> {
        let renewal = catch_unwind(AssertUnwindSafe(|| self.renewal(out, answer)));
        let mut leavings = Leavings::default();
        let mut guard = self.lock();
        let side = &mut *guard;
        let counts = renewal.as_ref().unwrap_or(&Renewal::NONE);
        let reply = side.commit(out, answer, counts, &mut leavings);
        self.end(side, out, &mut leavings);
        drop(guard);
        self.tell(&leavings);
        // The store was asked, so the call takes effect first.
        match renewal {
            Ok(_) => reply,
            Err(panic) => resume_unwind(panic),
        }
    }

    /// What becomes of the life of an entry by a call that has asked.
    fn renewal(&self, out: &Out<K, V, E>, answer: &Answer<V, E>) -> Renewal {
        let lives = &self.lives;
        if !lives.is_on() {
            return Renewal::NONE;
        }
        let now = lives.now();
        let mut guard = self.lock();
        let slot = guard.table.slot(out.slot);
        // While the call had it reserved, it may have expired.
        let entry = slot.entry.as_ref().filter(|_| !slot.has_expired(now));
        let left = slot.life.left(now);
        if out.is_get && matches!(answer, Answer::Load(Ok(None))) {
            return lives.absence(now);
        }
        let question = answer.question(out, entry);
        drop(guard);
        let given = answer.life(out);
        let Some((question, value)) = question else {
            return Renewal::NONE;
        };
        if !lives.asks(question, given) {
            return lives.renewal(Some(question), given, None, now);
        }
        let asking = Asking {
            question,
            value,
            left,
        };
        let said = in_call(|| lives.ask(&out.key, &asking));
        lives.renewal(Some(question), given, Some(said), lives.now())
    }

    /// Gives up a call that has asked nobody.
    pub(crate) fn withdraw(&self, out: &Out<K, V, E>) {
        let mut leavings = Leavings::default();
        let mut guard = self.lock();
        let side = &mut *guard;
        let ticket = Ticket(out.flight.number);
        side.desk.withdraw(ticket).expect("the ticket is out");
        self.end(side, out, &mut leavings);
    }

    fn end(&self, side: &mut Side<K, V, E>, out: &Out<K, V, E>, leavings: &mut Leavings<K, V, E>) {
        let slot = side.table.slot(out.slot);
        leavings.flight = slot.flight.take();
        if std::mem::replace(&mut slot.fate, Fate::Stays) != Fate::Stays {
            side.drop_entry(out.slot, leavings);
        }
        out.flight.is_over.store(true, Relaxed);
        if out.flight.waiters.wake(&mut leavings.wakers) {
            waiting::is_over(self.reservation(&out.flight));
        }
        side.pick_up_abandoned(out.slot);
        side.leave(out, leavings);
        self.room.wake(&mut leavings.wakers);
    }

    /// Picks up what was joined, if the load is over: a reply, or None to begin anew. If it isn't, the waker is kept.
    pub(crate) fn pick_up(
        &self,
        out: &Out<K, V, E>,
        join: core::Join,
        seat: &mut Seat,
        waker: Waker,
    ) -> Picked<V, E> {
        let mut leavings = Leavings::default();
        let mut _spare = None;
        let mut guard = self.lock();
        let picked = guard.pick_up(out, join);
        match &picked {
            None => _spare = out.flight.waiters.keep(seat, waker),
            Some(_) => self.end_join(&mut guard, out, &mut leavings),
        }
        picked
    }

    fn end_join(
        &self,
        side: &mut Side<K, V, E>,
        out: &Out<K, V, E>,
        leavings: &mut Leavings<K, V, E>,
    ) {
        side.leave(out, leavings);
        self.room.wake(&mut leavings.wakers);
    }

    /// The same; it sleeps until the load is over.
    pub(crate) fn wait_and_pick_up(
        &self,
        out: &Out<K, V, E>,
        join: core::Join,
    ) -> Result<Option<Result<Reply<V>, Failure<E>>>, Stop> {
        let mut leavings = Leavings::default();
        let mut guard = self.lock();
        let mut is_listed = false;
        loop {
            if let Some(picked) = guard.pick_up(out, join) {
                if is_listed {
                    waiting::wait_no_more();
                }
                self.end_join(&mut guard, out, &mut leavings);
                return Ok(picked);
            }
            if !is_listed {
                self.list(&out.flight)?;
                is_listed = true;
            }
            guard = out.flight.waiters.sleep(guard);
        }
    }

    fn list(&self, flight: &Flight<V, E>) -> Result<(), Stop> {
        if waiting::wait_for(flight.owner, self.reservation(flight)) {
            Ok(())
        } else {
            Err(Stop::WouldDeadlock)
        }
    }

    /// Nobody waits for this join any more.
    pub(crate) fn abandon(&self, out: &Out<K, V, E>, join: core::Join, seat: Seat) {
        let mut leavings = Leavings::default();
        let _spare = out.flight.waiters.forget(seat);
        let mut guard = self.lock();
        if guard.pick_up(out, join).is_some() {
            self.end_join(&mut guard, out, &mut leavings);
        } else {
            guard.table.slot(out.slot).abandoned.push(join);
        }
    }

    /// Sleeps until it may be tried again what was refused.
    pub(crate) fn wait(&self, blocked: &Blocked<V, E>) -> Result<(), Stop> {
        let mut guard = self.lock();
        if !guard.is_blocked(blocked) {
            return Ok(());
        }
        match blocked {
            Blocked::Key(flight) => {
                self.list(flight)?;
                while guard.is_blocked(blocked) {
                    guard = flight.waiters.sleep(guard);
                }
                waiting::wait_no_more();
            }
            Blocked::Room(_) if crate::outside::is_in_call() => return Err(Stop::WouldDeadlock),
            Blocked::Room(_) => {
                while guard.is_blocked(blocked) {
                    guard = self.room.sleep(guard);
                }
            }
        }
        Ok(())
    }

    /// Whether it may be tried again what was refused; if not, the waker is kept.
    pub(crate) fn poll(&self, blocked: &Blocked<V, E>, seat: &mut Seat, waker: Waker) -> bool {
        let mut _spare = None;
        let guard = self.lock();
        if !guard.is_blocked(blocked) {
            return true;
        }
        _spare = self.waiters(blocked).keep(seat, waker);
        false
    }

    /// Nobody waits any more to try it again.
    pub(crate) fn forget(&self, blocked: &Blocked<V, E>, seat: Seat) {
        drop(self.waiters(blocked).forget(seat));
    }

    fn waiters<'w>(&'w self, blocked: &'w Blocked<V, E>) -> &'w Waiters {
        match blocked {
            Blocked::Key(flight) => &flight.waiters,
            Blocked::Room(_) => &self.room,
        }
    }

    /// The keys that are cached, but for those whose entry has expired by then; with those that are known to be absent, or without.
    pub(crate) fn keys(&self, now: Nanos, with_absent: bool) -> Result<Vec<Arc<K>>, Stop> {
        let guard = self.lock();
        guard.check_open()?;
        let slots = guard.table.slots();
        let slots = slots.filter(|slot| slot.is_cached(now) || with_absent && slot.is_absent());
        Ok(slots.map(|slot| slot.key().clone()).collect())
    }

    pub(crate) fn len(&self, now: Nanos) -> Result<usize, Stop> {
        let guard = self.lock();
        guard.check_open()?;
        let slots = guard.table.slots();
        let cached = slots.filter(|slot| slot.is_cached(now));
        Ok(cached.count())
    }

    /// Uncaches what has expired, and says how many.
    pub(crate) fn expire(&self, now: Nanos) -> usize {
        let mut count = 0;
        let mut next = 0;
        loop {
            let mut leavings = Vec::new();
            let mut guard = self.lock();
            let end = guard.table.len().min(next + SWEPT_AT_ONCE);
            if next >= end || guard.is_closed {
                return count;
            }
            count += guard.expire_some(next..end, now, &mut leavings);
            next = end;
        }
    }

    /// Drops the entry of a key, at once or at the end of the call that has reserved it. It waits for no call.
    pub(crate) fn invalidate(&self, hash: u64, is_key: impl Fn(&K) -> bool) {
        let mut leavings = Leavings::default();
        let Ok((mut guard, Some(slot))) = self.find(hash, is_key) else {
            return;
        };
        guard.invalidate(slot, &mut leavings);
    }

    /// The same of all keys, some at a time. From now on the entries stay that calls leave, or don't; None: as before.
    pub(crate) fn invalidate_all(&self, keeps: Option<bool>) {
        let mut next = 0;
        loop {
            let mut leavings = Vec::new();
            let mut guard = self.lock();
            guard.keeps = keeps.unwrap_or(guard.keeps);
            let end = guard.table.len().min(next + SWEPT_AT_ONCE);
            if next >= end || guard.is_closed {
                return;
            }
            guard.invalidate_some(next..end, &mut leavings);
            next = end;
        }
    }

    pub(crate) fn is_suspended(&self) -> bool {
        !self.lock().keeps
    }

    /// How many threads sleep in calls here.
    pub(crate) fn waiting(&self) -> usize {
        let guard = self.lock();
        let flights = guard.table.slots().filter_map(|slot| slot.flight.as_ref());
        let asleep: usize = flights.map(|flight| flight.waiters.sleepers()).sum();
        asleep + self.room.sleepers()
    }

    pub(crate) fn statistics(&self) -> Result<Statistics, Stop> {
        let mut guard = self.lock();
        guard.check_open()?;
        Ok(guard.desk.statistics().expect("the desk is open"))
    }

    /// Later calls are told that the cache is closed; calls under way end.
    pub(crate) fn close(&self) {
        let mut leavings = Leavings::default();
        let mut guard = self.lock();
        guard.is_closed = true;
        for slot in guard.table.slots() {
            if let Some(flight) = &slot.flight {
                flight.waiters.wake(&mut leavings.wakers);
            }
        }
        self.room.wake(&mut leavings.wakers);
        guard.shut_if_idle(&mut leavings);
    }

    /// Whether table and core have the same entries, and nothing else is there. For tests, while no call is under way.
    pub(crate) fn agrees(&self) -> bool {
        self.lock().agrees()
    }
}
