//! What the mutex of a stripe guards: a desk, its table, and who has a call out.
use crate::core::{self, Asked, Desk, Done, PickedUp, Refusal, Shape, Ticket};
use crate::lives::{Nanos, Renewal};
use crate::op::{Op, Reply};
use crate::step::{AT_ONCE, Answer, Blocked, Call, Effect, Fault, First, Out, Sessions, Stop};
use crate::step::{bytes_of, found_of, numbered};
use crate::table::{Failure, Fate, Flight, Leavings, Table, Versioned};
use crate::waiting::Waiters;
use std::sync::atomic::Ordering::Relaxed;
use std::sync::{Arc, OnceLock};

/// What is wrong if the core answers so: its rules are broken, by it or by the host.
const RULES: &str = "the host keeps the core's rules";

pub(crate) struct Side<K, V, E> {
    pub desk: Desk,
    pub table: Table<K, V, E>,
    sessions: Sessions,
    pub is_closed: bool,
    /// How many commits, withdrawals and pick-ups there were.
    changes: u64,
    /// Whether the entries stay that calls leave.
    pub keeps: bool,
    /// Whether it is remembered that a `get` has found nothing.
    remembers: bool,
}

impl<K, V, E> Side<K, V, E> {
    pub(crate) fn open(shape: &Shape, remembers: bool) -> Result<Self, core::Code> {
        Ok(Side {
            desk: Desk::open(shape, 0, &[])?,
            table: Table::new(),
            sessions: Sessions::new(),
            is_closed: false,
            changes: 0,
            keeps: true,
            remembers,
        })
    }

    pub(crate) fn check_open(&self) -> Result<(), Stop> {
        if self.is_closed {
            Err(Stop::Closed)
        } else {
            Ok(())
        }
    }

    pub(crate) fn is_blocked(&self, blocked: &Blocked<V, E>) -> bool {
        let is_over = match blocked {
            Blocked::Key(flight) => flight.is_over.load(Relaxed),
            Blocked::Room(changes) => self.changes != *changes,
        };
        !self.is_closed && !is_over
    }

    /// What a `get` finds that needs no other phase.
    #[inline]
    pub(crate) fn hit(&mut self, slot: usize, now: Nanos) -> Option<Option<Arc<V>>> {
        let slot = self.table.slot(slot);
        let entry = slot.entry.as_ref().filter(|_| !slot.life.is_over(now))?;
        let hit = self.desk.hit(AT_ONCE, &slot.id.bytes());
        let value = hit.expect("the desk is open")?;
        assert_eq!(value, entry.bytes(), "the core has another value");
        Some(entry.value.clone())
    }

    /// The first phase of a call at the slot of its key, whose entry has not expired.
    pub(crate) fn make(
        &mut self,
        call: &Call<'_, K, V>,
        slot: usize,
        old: u64,
        renewal: &Renewal,
        leavings: &mut Leavings<K, V, E>,
    ) -> Result<First<K, V, E>, Stop> {
        let brought = call.op.brought();
        let brought = brought.map(|value| self.table.version(Some(value.clone())));
        let first = self.step(call, slot, old, brought, renewal, leavings);
        if !self.keeps && matches!(first, Ok(First::Done(_))) {
            self.drop_entry(slot, leavings);
        }
        self.table.release(slot, &mut leavings.keys[0]);
        first
    }

    fn step(
        &mut self,
        call: &Call<'_, K, V>,
        slot: usize,
        old: u64,
        brought: Option<Versioned<V>>,
        renewal: &Renewal,
        leavings: &mut Leavings<K, V, E>,
    ) -> Result<First<K, V, E>, Stop> {
        let session = self.sessions.next();
        let (bytes, old) = (bytes_of(brought.as_ref()), old.to_le_bytes());
        let id = self.table.slot(slot).id.bytes();
        let op = call.op.numbered(&bytes, &old);
        let asked = self.desk.begin(session, op, &id).expect(RULES);
        let (ticket, next): (_, fn(_) -> _) = match asked {
            Asked::Done(done) => {
                let reply = reply_of(&self.table, slot, &done, None);
                let table = &mut self.table;
                table.follow(slot, &done.moves, brought.as_ref(), renewal, leavings);
                return Ok(First::Done(reply.expect("a first phase has no fault")));
            }
            Asked::Refused(refusal) => return self.refused(slot, refusal).map(First::Busy),
            Asked::Full | Asked::Shut => unreachable!("it ends by itself, and is never shut"),
            Asked::Joined(join) => return Ok(self.joined(call, slot, session, join)),
            Asked::Load(ticket) => (ticket, First::Load),
            Asked::Write(ticket, value) => {
                assert_eq!(value, bytes, "the core has another value");
                (ticket, First::Write)
            }
            Asked::Delete(ticket) => (ticket, First::Write),
            #[rustfmt::skip]
            Asked::Process { ticket, entry, may_load } => {
                let entry = self.table.check(slot, entry);
                let out = self.reserve(call, slot, session, ticket, None);
                return Ok(First::Process(out, entry, may_load));
            }
        };
        Ok(next(self.reserve(call, slot, session, ticket, brought)))
    }

    fn refused(&self, slot: usize, refusal: Refusal) -> Result<Blocked<V, E>, Stop> {
        match (refusal, self.table.flight(slot)) {
            (Refusal::HistoryFull, _) => Err(Stop::HistoryFull),
            (Refusal::Busy, Some(flight)) => Ok(Blocked::Key(flight.clone())),
            _ => Ok(Blocked::Room(self.changes)),
        }
    }

    fn joined(
        &mut self,
        call: &Call<'_, K, V>,
        slot: usize,
        session: u32,
        join: core::Join,
    ) -> First<K, V, E> {
        let flight = self.table.flight(slot).cloned();
        let flight = flight.expect("a load that is joined is under way");
        assert_eq!(flight.number, join.load, "the core names another load");
        First::Joined(self.take_out(call, slot, session, flight, None), join)
    }

    fn reserve(
        &mut self,
        call: &Call<'_, K, V>,
        slot: usize,
        session: u32,
        ticket: Ticket,
        brought: Option<Versioned<V>>,
    ) -> Out<K, V, E> {
        let flight = Arc::new(Flight {
            owner: call.owner.number(),
            number: ticket.0,
            is_over: false.into(),
            found: OnceLock::new(),
            waiters: Waiters::default(),
        });
        let reserved = self.table.slot(slot);
        reserved.flight = Some(flight.clone());
        reserved.fate = if self.keeps {
            Fate::Stays
        } else {
            Fate::Dropped
        };
        self.take_out(call, slot, session, flight, brought)
    }

    fn take_out(
        &mut self,
        call: &Call<'_, K, V>,
        slot: usize,
        session: u32,
        flight: Arc<Flight<V, E>>,
        brought: Option<Versioned<V>>,
    ) -> Out<K, V, E> {
        self.sessions.take();
        self.table.slot(slot).pins += 1;
        Out {
            key: call.key.clone(),
            slot,
            session,
            flight,
            brought,
            life: call.life,
            is_get: matches!(call.op, Op::Get),
        }
    }

    /// Uncaches an entry that has expired, as a step of its own. If that can't be done now: what it waits for.
    #[cold]
    pub(crate) fn expire(
        &mut self,
        slot: usize,
        leavings: &mut Leavings<K, V, E>,
    ) -> Result<Option<Blocked<V, E>>, Stop> {
        let session = self.sessions.next();
        let id = self.table.slot(slot).id.bytes();
        let asked = self.desk.begin(session, core::Op::Clear, &id);
        match asked.expect(RULES) {
            Asked::Done(done) => {
                let table = &mut self.table;
                table.follow(slot, &done.moves, None, &Renewal::NONE, leavings);
                table.release(slot, &mut leavings.keys[0]);
                Ok(None)
            }
            Asked::Refused(refusal) => self.refused(slot, refusal).map(Some),
            _ => unreachable!("a clear asks nobody"),
        }
    }

    /// Uncaches the entry of a key that isn't reserved. While the history has no room for that step, it is there, and hidden.
    pub(crate) fn drop_entry(&mut self, slot: usize, leavings: &mut Leavings<K, V, E>) {
        let held = self.table.slot(slot);
        if held.entry.is_some() {
            held.hide();
            let mut dropped = Leavings::default();
            let _ = self.expire(slot, &mut dropped);
            leavings.dropped = Some(Box::new(dropped));
        }
    }

    /// Uncaches the entry of a key; if the key is reserved, when that reservation ends.
    pub(crate) fn invalidate(&mut self, slot: usize, leavings: &mut Leavings<K, V, E>) {
        let held = self.table.slot(slot);
        if held.flight.is_some() {
            held.fate = Fate::Overtaken;
            held.hide();
        } else {
            self.drop_entry(slot, leavings);
        }
    }

    /// The same in these slots.
    pub(crate) fn invalidate_some(
        &mut self,
        slots: std::ops::Range<usize>,
        leavings: &mut Vec<Leavings<K, V, E>>,
    ) {
        for slot in slots {
            let mut left = Leavings::default();
            self.invalidate(slot, &mut left);
            leavings.push(left);
        }
    }

    /// Uncaches what has expired in these slots, and says how many. What can't be uncached now is left.
    pub(crate) fn expire_some(
        &mut self,
        slots: std::ops::Range<usize>,
        now: Nanos,
        leavings: &mut Vec<Leavings<K, V, E>>,
    ) -> usize {
        let mut count = 0;
        for slot in slots {
            if !self.table.slot(slot).has_expired(now) {
                continue;
            }
            let mut left = Leavings::default();
            if let Ok(None) = self.expire(slot, &mut left) {
                count += 1;
                leavings.push(left);
            }
        }
        count
    }

    pub(crate) fn commit(
        &mut self,
        out: &Out<K, V, E>,
        answer: &Answer<V, E>,
        renewal: &Renewal,
        leavings: &mut Leavings<K, V, E>,
    ) -> Result<Reply<V>, Fault> {
        let ticket = Ticket(out.flight.number);
        let Side {
            desk,
            table,
            remembers,
            ..
        } = self;
        let remembers = *remembers;
        let mut loaded = None;
        let mut brought = out.brought.clone();
        let done = match answer {
            Answer::Load(load) => {
                let found = found_of(table, load, remembers && out.is_get);
                loaded = found.as_ref().ok().cloned().flatten();
                brought = loaded.clone();
                let bytes = bytes_of(brought.as_ref());
                let done = desk.commit_load(ticket, numbered(&found, &bytes));
                let _ = out.flight.found.set(found);
                done
            }
            Answer::Write(written) => desk.commit_write(ticket, *written),
            Answer::Process { .. } => {
                let (done, kept) = commit_process(desk, table, ticket, answer);
                brought = kept;
                done
            }
        };
        let done = done.expect(RULES);
        let reply = reply_of(table, out.slot, &done, loaded.as_ref());
        table.follow(out.slot, &done.moves, brought.as_ref(), renewal, leavings);
        reply
    }

    /// None: the load isn't over. Some of None: it was withdrawn.
    pub(crate) fn pick_up(
        &mut self,
        out: &Out<K, V, E>,
        join: core::Join,
    ) -> Option<Option<Result<Reply<V>, Failure<E>>>> {
        let id = self.table.slot(out.slot).id.bytes();
        let picked = self.desk.pick_up(join, &id);
        match picked.expect("the join is out") {
            PickedUp::NotYet => None,
            PickedUp::Again => Some(None),
            PickedUp::Done(told, _place) => {
                let found = out.flight.found.get().expect("the load is over");
                let found = found.as_ref().map(Option::as_ref).map_err(Clone::clone);
                Some(Some(found.map(|found| {
                    Reply::Value(self.table.value(out.slot, &told, found))
                })))
            }
        }
    }

    pub(crate) fn pick_up_abandoned(&mut self, slot: usize) {
        let id = self.table.slot(slot).id.bytes();
        for join in std::mem::take(&mut self.table.slot(slot).abandoned) {
            self.desk.pick_up(join, &id).expect("the join is out");
            self.table.slot(slot).pins -= 1;
            self.sessions.give(join.session);
            self.changes += 1;
        }
    }

    pub(crate) fn leave(&mut self, out: &Out<K, V, E>, leavings: &mut Leavings<K, V, E>) {
        self.changes += 1;
        self.sessions.give(out.session);
        self.table.slot(out.slot).pins -= 1;
        self.table.release(out.slot, &mut leavings.keys[0]);
        self.shut_if_idle(leavings);
    }

    /// Whether table and core have the same entries, and nothing else is there.
    pub(crate) fn agrees(&mut self) -> bool {
        let Ok(mut listed) = self.desk.entries() else {
            return self.is_closed;
        };
        let mut held: Vec<(Vec<u8>, Vec<u8>)> = Vec::new();
        for slot in self.table.slots() {
            match &slot.entry {
                Some(entry) if slot.pins == 0 && slot.flight.is_none() => {
                    held.push((slot.id.bytes().to_vec(), entry.bytes().to_vec()));
                }
                _ => return false,
            }
        }
        listed.sort();
        held.sort();
        self.sessions.is_idle() && listed == held
    }

    pub(crate) fn shut_if_idle(&mut self, leavings: &mut Leavings<K, V, E>) {
        if self.is_closed && self.sessions.is_idle() && self.desk.close().is_ok() {
            leavings.table = Some(std::mem::replace(&mut self.table, Table::new()));
        }
    }
}

/// Commits what a processor did. The second: the value that it leaves, if it leaves a new one.
#[allow(clippy::type_complexity)]
fn commit_process<'d, K, V, E>(
    desk: &'d mut Desk,
    table: &mut Table<K, V, E>,
    ticket: Ticket,
    answer: &Answer<V, E>,
) -> (Result<Done<'d>, core::Code>, Option<Versioned<V>>) {
    let Answer::Process {
        load,
        effect,
        write,
        ..
    } = answer
    else {
        unreachable!("a processor has answered");
    };
    let found = load.as_ref().map(|load| found_of(table, load, false));
    let found_value = found.as_ref().and_then(|it| it.as_ref().ok()?.as_ref());
    let set = match effect {
        Effect::Set(value) => Some(table.version(Some(value.clone()))),
        _ => None,
    };
    let (found_bytes, set_bytes) = (bytes_of(found_value), bytes_of(set.as_ref()));
    let processed = core::Processed {
        load: found.as_ref().map(|found| numbered(found, &found_bytes)),
        effect: effect.numbered(&set_bytes),
        write: *write,
        outcome: None,
    };
    let brought = set.or(found_value.cloned());
    (desk.commit_process(ticket, &processed), brought)
}

fn reply_of<K, V, E>(
    table: &Table<K, V, E>,
    slot: usize,
    done: &Done<'_>,
    loaded: Option<&Versioned<V>>,
) -> Result<Reply<V>, Fault> {
    match done.reply {
        core::Reply::Unit => Ok(Reply::Unit),
        core::Reply::Flag(flag) => Ok(Reply::Flag(flag)),
        core::Reply::Value(_) => Ok(Reply::Value(table.value(slot, &done.reply, loaded))),
        core::Reply::LoaderFailed(_) => Err(Fault::Loader),
        core::Reply::WriterFailed(_) => Err(Fault::Writer),
        core::Reply::ProcessorFailed(_) => Err(Fault::Processor),
    }
}
