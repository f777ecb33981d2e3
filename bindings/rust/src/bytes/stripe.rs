//! One stripe of a cache of bytes: a desk under a mutex, and who has a call out.
use crate::Error;
use crate::at::Name;
use crate::core::{self, Asked, Desk, Done, Loaded, PickedUp, Refusal, Shape, Swept};
use crate::core::{Ticket, Written};
use crate::op::Reply;
use crate::outside::is_in_call;
use crate::step::{FAILED, Sessions, Stop};
use crate::table::{Failure, Fate, Flight};
use crate::waiting::{self, Waiters, this_thread};
use std::collections::HashMap;
use std::sync::atomic::Ordering::Relaxed;
use std::sync::{Arc, Mutex, MutexGuard, OnceLock};

pub(super) struct Side<E> {
    pub desk: Desk,
    sessions: Sessions,
    /// The calls that have reserved a key, and what becomes of its entry when they end.
    flights: HashMap<Vec<u8>, (Arc<Flight<(), E>>, Fate)>,
    /// Whether nobody is to see any more what is cached of the keys that aren't reserved: the core has had no place to uncache a key.
    is_shut: bool,
    /// Whether the entries stay that calls leave.
    keeps: bool,
    /// Joins that nobody waits for any more.
    abandoned: Vec<(core::Join, Vec<u8>)>,
    is_closed: bool,
    changes: u64,
}

pub(super) struct Stripe<E> {
    side: Mutex<Side<E>>,
    room: Waiters,
    pub name: Name<[u8]>,
}

/// What a first phase asks for.
pub(super) enum First<'c, E> {
    Done(Reply<Vec<u8>>),
    Load(Asking<'c, E>),
    Write(Asking<'c, E>, Option<Vec<u8>>),
    Joined(core::Join, Arc<Flight<(), E>>),
    Busy(Blocked<E>),
}

/// What a call waits for that was refused.
pub(super) enum Blocked<E> {
    Key(Arc<Flight<(), E>>),
    Room(u64),
}

/// A call that has asked. Dropped, it is committed as failed.
pub(super) struct Asking<'c, E> {
    stripe: &'c Stripe<E>,
    key: Vec<u8>,
    session: u32,
    flight: Arc<Flight<(), E>>,
    is_load: bool,
    is_over: bool,
}

impl<E> Asking<'_, E> {
    /// Ends the call with what the loader answered.
    pub(super) fn commit_load<W>(
        mut self,
        loaded: Result<Option<Vec<u8>>, E>,
    ) -> Result<Reply<Vec<u8>>, Error<E, W>> {
        let found = match loaded {
            Ok(Some(value)) if value.len() > core::VALUE_MAX => Err(Failure::Limits),
            Ok(found) => Ok(found),
            Err(error) => Err(Failure::Error(Arc::new(error))),
        };
        let reply = self.end_load(&found);
        match found {
            Ok(_) => Ok(reply.expect("the loader has answered")),
            Err(failure) => Err(failure.at(self.stripe.name.at(Some(&self.key)))),
        }
    }

    fn end_load(&mut self, found: &Result<Option<Vec<u8>>, Failure<E>>) -> Option<Reply<Vec<u8>>> {
        let answer = match found {
            Ok(Some(value)) => Loaded::Found(value),
            Ok(None) => Loaded::Nothing,
            Err(_) => Loaded::Failed(FAILED),
        };
        if let Err(failure) = found {
            let _ = self.flight.found.set(Err(failure.clone()));
        }
        self.end(|desk, ticket| desk.commit_load(ticket, answer))
    }

    /// Ends the call with what the writer answered. None: it failed.
    pub(super) fn commit_write(&mut self, is_written: bool) -> Option<Reply<Vec<u8>>> {
        let answer = if is_written {
            Written::Done
        } else {
            Written::Failed(FAILED)
        };
        self.end(|desk, ticket| desk.commit_write(ticket, answer))
    }

    fn end(
        &mut self,
        commit: impl for<'d> FnOnce(&'d mut Desk, Ticket) -> Result<Done<'d>, core::Code>,
    ) -> Option<Reply<Vec<u8>>> {
        self.is_over = true;
        let mut side = self.stripe.lock();
        let done = commit(&mut side.desk, Ticket(self.flight.number));
        let reply = owned(&done.expect("the host keeps the core's rules").reply);
        let reserved = side.flights.remove(&self.key);
        // What was overtaken the core has uncached.
        if reserved.is_some_and(|(_, fate)| fate == Fate::Dropped) {
            side.drop_entry(&self.key);
        }
        self.flight.is_over.store(true, Relaxed);
        if self.flight.waiters.wake(&mut Vec::new()) {
            waiting::is_over(self.stripe.reservation(&self.flight));
        }
        self.stripe.leave(&mut side, self.session);
        reply
    }
}

impl<E> Drop for Asking<'_, E> {
    fn drop(&mut self) {
        if self.is_over {
            return;
        }
        if self.is_load {
            self.end_load(&Err(Failure::Panicked));
        } else {
            self.commit_write(false);
        }
    }
}

/// A reply with bytes of its own. None: the loader or the writer failed.
fn owned(reply: &core::Reply<'_>) -> Option<Reply<Vec<u8>>> {
    match reply {
        core::Reply::Unit => Some(Reply::Unit),
        core::Reply::Flag(flag) => Some(Reply::Flag(*flag)),
        core::Reply::Value(value) => Some(Reply::Value(value.map(|it| Arc::new(it.to_vec())))),
        _ => None,
    }
}

impl<E> Stripe<E> {
    pub(super) fn open(shape: &Shape, number: usize, name: Name<[u8]>) -> Result<Self, core::Code> {
        Ok(Stripe {
            side: Mutex::new(Side {
                desk: Desk::open(shape, number, &[])?,
                sessions: Sessions::new(),
                flights: HashMap::new(),
                is_shut: false,
                keeps: true,
                abandoned: Vec::new(),
                is_closed: false,
                changes: 0,
            }),
            room: Waiters::default(),
            name,
        })
    }

    /// The error of a call that has stopped there.
    pub(super) fn stopped<W>(&self, stop: Stop, key: Option<&[u8]>) -> Error<E, W> {
        stop.at(self.name.at(key))
    }

    fn lock(&self) -> MutexGuard<'_, Side<E>> {
        self.side.lock().expect("a stripe's lock is poisoned")
    }

    pub(super) fn open_side(&self) -> Result<MutexGuard<'_, Side<E>>, Stop> {
        let side = self.lock();
        if side.is_closed {
            Err(Stop::Closed)
        } else {
            Ok(side)
        }
    }

    fn reservation(&self, flight: &Flight<(), E>) -> waiting::Reservation {
        (std::ptr::from_ref(self).addr(), flight.number)
    }

    /// A `get` that finds its entry. None: nothing was done.
    pub(super) fn hit(&self, key: &[u8]) -> Option<Vec<u8>> {
        let mut side = self.open_side().ok()?;
        let session = side.sessions.next();
        side.desk.hit(session, key).ok()?.map(<[u8]>::to_vec)
    }

    pub(super) fn begin(&self, op: core::Op<'_>, key: &[u8]) -> Result<First<'_, E>, Stop> {
        let mut guard = self.open_side()?;
        let side = &mut *guard;
        side.sweep();
        let session = side.sessions.next();
        let asked = match side.desk.begin(session, op, key) {
            Ok(asked) => asked,
            Err(core::Code::BadArgument) => return Err(Stop::Limits),
            Err(code) => panic!("the host keeps the core's rules: {code}"),
        };
        let (number, is_load, value) = match asked {
            Asked::Done(done) => {
                let reply = owned(&done.reply);
                if !side.keeps && !side.flights.contains_key(key) {
                    side.drop_entry(key);
                }
                return Ok(First::Done(reply.expect("a first phase has no fault")));
            }
            Asked::Load(ticket) => (ticket.0, true, None),
            Asked::Write(ticket, value) => (ticket.0, false, Some(value.to_vec())),
            Asked::Delete(ticket) => (ticket.0, false, None),
            Asked::Joined(join) => {
                side.sessions.take();
                return Ok(First::Joined(join, side.flights[key].0.clone()));
            }
            Asked::Refused(refusal) => return side.refused(op, Some(refusal), key),
            Asked::Shut => return side.refused(op, None, key),
            Asked::Process { .. } | Asked::Full => unreachable!("it was not asked for"),
        };
        let asking = self.reserve(side, key, session, number, is_load);
        Ok(if is_load {
            First::Load(asking)
        } else {
            First::Write(asking, value)
        })
    }

    fn reserve(
        &self,
        side: &mut Side<E>,
        key: &[u8],
        session: u32,
        number: u64,
        is_load: bool,
    ) -> Asking<'_, E> {
        let flight = Arc::new(Flight {
            owner: this_thread(),
            number,
            is_over: false.into(),
            found: OnceLock::new(),
            waiters: Waiters::default(),
        });
        side.sessions.take();
        let fate = if side.keeps {
            Fate::Stays
        } else {
            Fate::Dropped
        };
        side.flights.insert(key.to_vec(), (flight.clone(), fate));
        Asking {
            stripe: self,
            key: key.to_vec(),
            session,
            flight,
            is_load,
            is_over: false,
        }
    }

    fn leave(&self, side: &mut Side<E>, session: u32) {
        side.changes += 1;
        side.sessions.give(session);
        side.sweep();
        self.room.wake(&mut Vec::new());
        side.shut_if_idle();
    }

    /// Sleeps until a load that was joined is over. None: it was withdrawn.
    pub(super) fn wait_and_pick_up(
        &self,
        join: core::Join,
        flight: &Flight<(), E>,
        key: &[u8],
    ) -> Result<Option<Result<Reply<Vec<u8>>, Failure<E>>>, Stop> {
        let mut side = self.lock();
        if !flight.is_over.load(Relaxed) {
            if !waiting::wait_for(flight.owner, self.reservation(flight)) {
                side.abandoned.push((join, key.to_vec()));
                return Err(Stop::WouldDeadlock);
            }
            while !flight.is_over.load(Relaxed) {
                side = flight.waiters.sleep(side);
            }
            waiting::wait_no_more();
        }
        let picked = side.desk.pick_up(join, key).expect("the join is out");
        let reply = match picked {
            PickedUp::Done(reply, _place) => Some(owned(&reply)),
            PickedUp::Again => None,
            PickedUp::NotYet => unreachable!("the load is over"),
        };
        self.leave(&mut side, join.session);
        let failure = || match flight.found.get() {
            Some(Err(failure)) => failure.clone(),
            _ => unreachable!("the loader failed"),
        };
        Ok(reply.map(|reply| reply.ok_or_else(failure)))
    }

    /// Sleeps until it may be tried again what was refused.
    pub(super) fn wait(&self, blocked: &Blocked<E>) -> Result<(), Stop> {
        let mut side = self.lock();
        if !side.is_blocked(blocked) {
            return Ok(());
        }
        match blocked {
            Blocked::Key(flight) => {
                if !waiting::wait_for(flight.owner, self.reservation(flight)) {
                    return Err(Stop::WouldDeadlock);
                }
                while side.is_blocked(blocked) {
                    side = flight.waiters.sleep(side);
                }
                waiting::wait_no_more();
            }
            Blocked::Room(_) if is_in_call() => return Err(Stop::WouldDeadlock),
            Blocked::Room(_) => {
                while side.is_blocked(blocked) {
                    side = self.room.sleep(side);
                }
            }
        }
        Ok(())
    }

    /// Drops the entry of a key, at once or at the end of the call that has reserved it. It waits for no call.
    pub(super) fn invalidate(&self, key: &[u8]) {
        if let Ok(mut side) = self.open_side() {
            side.invalidate(key);
        }
    }

    /// The same of all keys. From now on the entries stay that calls leave, or don't; None: as before.
    pub(super) fn invalidate_all(&self, keeps: Option<bool>) {
        if let Ok(mut side) = self.open_side() {
            side.keeps = keeps.unwrap_or(side.keeps);
            side.invalidate_all();
        }
    }

    pub(super) fn is_suspended(&self) -> bool {
        !self.lock().keeps
    }

    /// What is cached, the most recently used first.
    pub(super) fn entries(&self) -> Result<Vec<(Vec<u8>, Vec<u8>)>, Stop> {
        let mut side = self.open_side()?;
        let listed = side.desk.entries();
        let mut entries = listed.expect("the desk is open, and has memory");
        entries.retain(|(key, _)| !side.is_forgotten(key));
        Ok(entries)
    }

    /// How many threads sleep in calls here.
    pub(super) fn waiting(&self) -> usize {
        let side = self.lock();
        let flights = side.flights.values();
        let asleep: usize = flights.map(|(flight, _)| flight.waiters.sleepers()).sum();
        asleep + self.room.sleepers()
    }

    pub(super) fn close(&self) {
        let mut side = self.lock();
        side.is_closed = true;
        for (flight, _) in side.flights.values() {
            flight.waiters.wake(&mut Vec::new());
        }
        self.room.wake(&mut Vec::new());
        side.shut_if_idle();
    }
}

impl<E> Side<E> {
    fn is_blocked(&self, blocked: &Blocked<E>) -> bool {
        let is_over = match blocked {
            Blocked::Key(flight) => flight.is_over.load(Relaxed),
            Blocked::Room(changes) => self.changes != *changes,
        };
        !self.is_closed && !is_over
    }

    /// What a call is told that was refused, or, without a refusal, for which the desk is shut.
    fn refused<'c>(
        &self,
        op: core::Op<'_>,
        refusal: Option<Refusal>,
        key: &[u8],
    ) -> Result<First<'c, E>, Stop> {
        Ok(match (refusal, self.flights.get(key)) {
            (Some(Refusal::HistoryFull), _) => return Err(Stop::HistoryFull),
            _ if matches!(op, core::Op::ContainsKey) && self.is_forgotten(key) => {
                First::Done(Reply::Flag(false))
            }
            (Some(Refusal::Busy), Some((flight, _))) => First::Busy(Blocked::Key(flight.clone())),
            _ => First::Busy(Blocked::Room(self.changes)),
        })
    }

    /// Whether nobody is to see any more what is cached of a key: it was invalidated.
    fn is_forgotten(&self, key: &[u8]) -> bool {
        match self.flights.get(key) {
            Some((_, fate)) => *fate == Fate::Overtaken,
            None => self.is_shut,
        }
    }

    fn invalidate(&mut self, key: &[u8]) {
        if let Some((_, fate)) = self.flights.get_mut(key) {
            *fate = Fate::Overtaken;
        }
        self.drop_entry(key);
    }

    fn invalidate_all(&mut self) {
        for (_, fate) in self.flights.values_mut() {
            *fate = Fate::Overtaken;
        }
        self.desk.invalidate_all().expect("the desk is open");
        self.is_shut = true;
        self.sweep();
    }

    /// Uncaches the entry of a key; if the key is reserved, the core does that at the end of that call. A key that is too long has none.
    fn drop_entry(&mut self, key: &[u8]) {
        if let Ok(gone) = self.desk.invalidate(key) {
            self.is_shut |= gone.is_shut;
        }
        self.sweep();
    }

    /// Uncaches what is left of a desk that is shut, as far as there is a place for that.
    fn sweep(&mut self) {
        while self.is_shut {
            match self.desk.sweep().expect("the desk is open") {
                Swept::Evicted(_) => {}
                Swept::Open => self.is_shut = false,
                Swept::NotYet | Swept::Full => return,
            }
        }
    }

    /// Picks up what nobody waits for, as far as its load is over.
    fn pick_up_abandoned(&mut self) {
        let desk = &mut self.desk;
        let sessions = &mut self.sessions;
        self.abandoned.retain(|(join, key)| {
            let picked = desk.pick_up(*join, key).expect("the join is out");
            let is_out = matches!(picked, PickedUp::NotYet);
            if !is_out {
                sessions.give(join.session);
            }
            is_out
        });
    }

    fn shut_if_idle(&mut self) {
        self.pick_up_abandoned();
        if self.is_closed && self.sessions.is_idle() {
            let _ = self.desk.close();
        }
    }
}
