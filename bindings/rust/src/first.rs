//! First phases. What has to be asked of the user (whether values are equal, how long an entry lives) is found out with the lock free,
//! and counts if the value is still there when the lock is held again. Only keys are compared with the lock held, as in a map.
use crate::lives::{Asking, Nanos, Question, Renewal, Said};
use crate::op::{Op, Reply};
use crate::side::Side;
use crate::step::{Blocked, Call, First, Stop};
use crate::stripe::Stripe;
use crate::table::{Fate, Flight, Leavings, NO_VERSION, Slot, Versioned};
use std::panic::{AssertUnwindSafe, catch_unwind, resume_unwind};
use std::sync::{Arc, MutexGuard};
use std::time::Duration;

/// A stripe that is locked, and the slot of a key that was looked up.
pub(crate) type Found<'s, K, V, E> = (MutexGuard<'s, Side<K, V, E>>, Option<usize>);

/// What a first phase has found out with the lock free. It counts for those values alone.
struct Known {
    /// The value that was compared with the expected one, and whether they are equal.
    matching: (u64, bool),
    /// What the policy has said of which value.
    said: Option<(Question, u64, Said)>,
    /// Once the call can be made: what becomes of the life of an entry by it.
    renewal: Renewal,
}

impl Known {
    fn nothing() -> Known {
        Known {
            matching: (NO_VERSION, false),
            said: None,
            renewal: Renewal::NONE,
        }
    }

    /// The value that is equal to the expected one.
    fn equal(&self) -> u64 {
        if self.matching.1 {
            self.matching.0
        } else {
            NO_VERSION
        }
    }
}

/// How far a first phase is.
enum Look<V, E> {
    /// It has to know whether this value is the one that it expects.
    Match(Versioned<V>),
    /// It has to know what the policy says, of the entry with this version.
    Ask(u64, Asking<V>),
    /// The entry at this slot has expired.
    Expired(usize),
    /// The key is known to be absent, and that is all that is asked.
    Absent,
    /// The store has changed since the key was reserved, so it has to wait.
    Overtaken(Arc<Flight<V, E>>),
    /// It can be made, at this slot if the key has one.
    Ready(Option<usize>),
}

/// A first phase whose key's entry is out of date, and can't be uncached yet.
fn waiting<K, V, E>(op: &Op<V>, blocked: Blocked<V, E>) -> First<K, V, E> {
    match op {
        Op::ContainsKey => First::Done(Reply::Flag(false)),
        _ => First::Busy(blocked),
    }
}

impl<K, V, E> Stripe<K, V, E> {
    /// Locks the stripe and looks a key up, by what compares keys of its hash with it. If that panics nothing was done, and the stripe
    /// isn't poisoned.
    #[inline]
    pub(crate) fn find(
        &self,
        hash: u64,
        is_key: impl Fn(&K) -> bool,
    ) -> Result<Found<'_, K, V, E>, Stop> {
        let guard = self.lock();
        guard.check_open()?;
        match catch_unwind(AssertUnwindSafe(|| guard.table.find(hash, is_key))) {
            Ok(slot) => Ok((guard, slot)),
            Err(panic) => {
                drop(guard);
                resume_unwind(panic)
            }
        }
    }

    /// A `get` that finds its entry: the value, or that there is none. None: nothing was done, as if the cache is closed.
    #[inline]
    pub(crate) fn hit(&self, hash: u64, is_key: impl Fn(&K) -> bool) -> Option<Option<Arc<V>>> {
        if self.lives.is_on() {
            return self.hit_alive(hash, is_key);
        }
        let (mut guard, slot) = self.find(hash, is_key).ok()?;
        guard.hit(slot?, 0)
    }

    /// The same, if entries may expire.
    #[inline(never)]
    fn hit_alive(&self, hash: u64, is_key: impl Fn(&K) -> bool) -> Option<Option<Arc<V>>> {
        let mut known = Known::nothing();
        let mut now = self.lives.now();
        loop {
            let (mut guard, slot) = self.find(hash, &is_key).ok()?;
            let side = &mut *guard;
            match self.look(side, slot, &Op::Get, None, &mut known, now) {
                Look::Ask(version, asking) => {
                    let key = side.table.at(slot.expect("it has an entry")).key().clone();
                    drop(guard);
                    known.said = self.ask(&key, version, &asking);
                    now = self.lives.now();
                }
                Look::Ready(Some(slot)) => {
                    let hit = side.hit(slot, now);
                    if hit.is_some() {
                        known.renewal.renew(&mut side.table.slot(slot).life, false);
                    }
                    let old = self.lives.claim(side.table.slot(slot), now);
                    drop(guard);
                    self.lives.reload(old, hash);
                    return hit;
                }
                _ => return None,
            }
        }
    }

    /// The first phase of a call.
    pub(crate) fn begin(&self, call: &Call<'_, K, V>) -> Result<First<K, V, E>, Stop>
    where
        K: Eq,
    {
        let mut known = Known::nothing();
        let mut now = self.lives.now();
        loop {
            let mut leavings = Leavings::default();
            let (mut guard, slot) = self.find(call.hash, |held| *held == **call.key)?;
            let side = &mut *guard;
            match self.look(side, slot, call.op, call.life, &mut known, now) {
                Look::Match(entry) => {
                    drop(guard);
                    let expected = call.op.expected().expect("it expects a value");
                    let value = entry.value.as_ref().expect("it isn't absent");
                    known.matching = (entry.version, expected.is_equal(value));
                }
                Look::Ask(version, asking) => {
                    drop(guard);
                    known.said = self.ask(call.key, version, &asking);
                    now = self.lives.now();
                }
                Look::Expired(slot) => {
                    if let Some(blocked) = side.expire(slot, &mut leavings)? {
                        return Ok(waiting(call.op, blocked));
                    }
                }
                Look::Overtaken(flight) => return Ok(waiting(call.op, Blocked::Key(flight))),
                Look::Absent => return Ok(First::Done(Reply::Flag(false))),
                Look::Ready(slot) => return self.make(guard, call, slot, &known, now),
            }
        }
    }

    /// Makes a first phase of which all is known, at the slot of its key if that has one.
    fn make(
        &self,
        mut guard: MutexGuard<'_, Side<K, V, E>>,
        call: &Call<'_, K, V>,
        slot: Option<usize>,
        known: &Known,
        now: Nanos,
    ) -> Result<First<K, V, E>, Stop> {
        let mut leavings = Leavings::default();
        let side = &mut *guard;
        let slot = slot.unwrap_or_else(|| side.table.add(call.key.clone(), call.hash));
        let old = match call.op {
            Op::Get => self.lives.claim(side.table.slot(slot), now),
            _ => None,
        };
        let first = side.make(call, slot, known.equal(), &known.renewal, &mut leavings);
        drop(guard);
        self.tell(&leavings);
        self.lives.reload(old, call.hash);
        first
    }

    /// What a first phase still has to know.
    #[inline(always)]
    fn look(
        &self,
        side: &Side<K, V, E>,
        at: Option<usize>,
        op: &Op<V>,
        life: Option<Duration>,
        known: &mut Known,
        now: Nanos,
    ) -> Look<V, E> {
        let slot = at.map(|at| side.table.at(at));
        if let (Some(at), Some(slot)) = (at, slot) {
            let is_forgotten = slot.is_absent() && !matches!(op, Op::Get | Op::ContainsKey);
            if is_forgotten || slot.has_expired(now) {
                return Look::Expired(at);
            }
            if slot.is_absent() && matches!(op, Op::ContainsKey) {
                return Look::Absent;
            }
            if let (Fate::Overtaken, Some(flight)) = (slot.fate, &slot.flight) {
                return Look::Overtaken(flight.clone());
            }
        }
        let entry = slot.and_then(|slot| slot.entry.as_ref());
        if let (Some(_), Some(entry)) = (op.expected(), entry) {
            if known.matching.0 != entry.version {
                return Look::Match(entry.clone());
            }
        }
        if self.lives.is_on() {
            match self.renewal_at_once(slot, op, life, known, now) {
                Ok(renewal) => known.renewal = renewal,
                Err((version, asking)) => return Look::Ask(version, asking),
            }
        }
        Look::Ready(at)
    }

    /// What becomes of the life of an entry by a first phase that asks nobody; or what the policy is to be asked for that.
    fn renewal_at_once(
        &self,
        slot: Option<&Slot<K, V, E>>,
        op: &Op<V>,
        life: Option<Duration>,
        known: &Known,
        now: Nanos,
    ) -> Result<Renewal, (u64, Asking<V>)> {
        let entry = slot.and_then(|slot| slot.entry.as_ref());
        let entry = entry.filter(|entry| entry.value.is_some());
        let version = entry.map_or(NO_VERSION, |entry| entry.version);
        let is_equal = known.equal() != NO_VERSION;
        let question = op.question(entry.is_some(), is_equal, self.has_write_through);
        // While the key is reserved no value comes in.
        let is_free = slot.is_none_or(|slot| slot.flight.is_none());
        let asked =
            question.filter(|it| self.lives.asks(*it, life) && (*it == Question::Read || is_free));
        let said = match (asked, known.said) {
            (None, _) => None,
            (Some(it), Some((about, of, said))) if (it, version) == (about, of) => Some(said),
            (Some(question), _) => {
                let read = entry.filter(|_| question == Question::Read);
                let value = read.and_then(|entry| entry.value.as_ref()).or(op.brought());
                let asking = Asking {
                    question,
                    value: value.expect("it is read, or comes").clone(),
                    left: slot.and_then(|slot| slot.life.left(now)),
                };
                return Err((version, asking));
            }
        };
        Ok(self.lives.renewal(question, life, said, now))
    }

    fn ask(&self, key: &K, version: u64, asking: &Asking<V>) -> Option<(Question, u64, Said)> {
        let said = self.lives.ask(key, asking);
        Some((asking.question, version, said))
    }
}
