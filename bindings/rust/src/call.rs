//! Calls in phases: for hosts that ask their store themselves, as async ones do.
//!
//! [`Cache::begin`](crate::Cache::begin) makes the first phase. A [`Ticket`] reserves the key: [`ask`](Ticket::ask) says that the store
//! is being asked, and the call then ends with a commit. So no key stays reserved, whatever becomes of a future:
//!
//! | Dropped | leaves |
//! |---|---|
//! | a [`Ticket`] | nothing: it is withdrawn, and who has joined its load begins anew |
//! | an [`AskedLoad`] | no entry: it has failed, and who has joined it begins anew |
//! | an [`AskedWrite`] | the entry as it was, though the store may be changed |
//! | a [`Processing`] | the entry as it was; if it was writing, the store may be changed |
//! | a [`Join`], a [`Busy`] | nothing |
//!
//! If a panic drops an asked load, those who have joined it fail with [`Error::LoaderPanicked`]. Who drops an asked write, and doesn't
//! know what the store has then, forgets the key: [`Cache::invalidate`](crate::Cache::invalidate).
//!
//! Who has a ticket or an asked call should await nothing but its store: whoever waits for the key waits for that, and since any
//! thread may end such a call, a thread that holds it itself isn't told that it would wait for ever. Entries [expire](crate::Expiry)
//! here as in whole calls: a first phase that meets an expired entry uncaches it, or is [`Begun::Busy`] if the key is reserved (a
//! [`ContainsKey`](crate::Op::ContainsKey) is answered); a commit asks the policy.
use crate::Error;
use crate::at::At;
use crate::core::{self, Written};
use crate::op::Reply;
pub use crate::processing::Processing;
use crate::processing::{Process, Reserved};
use crate::step::{Answer, Blocked, Call, FAILED, Fault, First, Loaded, Out};
use crate::stripe::Stripe;
use crate::table::Failure;
use crate::waiting::Seat;
use std::future::Future;
use std::marker::PhantomData;
use std::pin::Pin;
use std::sync::Arc;
use std::task::{Context, Poll};

/// What a first phase asks for. `L` is the loader's error, `W` the writer's.
#[must_use]
pub enum Begun<'c, K, V, L, W> {
    /// Nothing: the call is over.
    Done(Reply<V>),
    /// Ask the loader.
    Load(Ticket<AskedLoad<'c, K, V, L, W>>),
    /// Ask the writer.
    Write(Ticket<AskedWrite<'c, K, V, L, W>>),
    /// Run a processor.
    Process(Ticket<Processing<'c, K, V, L, W>>),
    /// Wait for another call's load.
    Joined(Join<'c, K, V, L, W>),
    /// Wait, then begin anew: nothing was done.
    Busy(Busy<'c, K, V, L>),
}

/// A call that has reserved its key and has asked nobody yet. Dropped, it is withdrawn: nothing was done.
pub struct Ticket<A>(A);

impl<A: Reserved> Ticket<A> {
    /// The store, or the processor, is being asked: from now on the call can't be withdrawn.
    pub fn ask(mut self) -> A {
        self.0.set_asked();
        self.0
    }
}

/// A reservation, and what becomes of it when it is dropped.
pub(crate) struct Held<'c, K, V, L> {
    pub stripe: &'c Stripe<K, V, L>,
    pub out: Out<K, V, L>,
    /// What is committed if the call is dropped after it has asked.
    if_dropped: fn(&mut Process<V, L>) -> Answer<V, L>,
    pub process: Process<V, L>,
    pub is_asked: bool,
    is_over: bool,
}

impl<'c, K, V, L> Held<'c, K, V, L> {
    fn new(
        stripe: &'c Stripe<K, V, L>,
        out: Out<K, V, L>,
        if_dropped: fn(&mut Process<V, L>) -> Answer<V, L>,
    ) -> Self {
        Held {
            stripe,
            out,
            if_dropped,
            process: Process::default(),
            is_asked: false,
            is_over: false,
        }
    }

    pub(crate) fn commit(&mut self, answer: &Answer<V, L>) -> Result<Reply<V>, Fault> {
        self.is_over = true;
        self.stripe.commit(&self.out, answer)
    }

    /// Where the call has failed.
    pub(crate) fn at(&self) -> At {
        self.stripe.name.at(Some(&self.out.key))
    }
}

impl<K, V, L> Drop for Held<'_, K, V, L> {
    fn drop(&mut self) {
        if self.is_over {
            return;
        }
        if self.is_asked {
            let answer = (self.if_dropped)(&mut self.process);
            let _ = self.commit(&answer);
        } else {
            self.stripe.withdraw(&self.out);
        }
    }
}

fn failed_load<V, L>(_process: &mut Process<V, L>) -> Answer<V, L> {
    Answer::Load(Err(if std::thread::panicking() {
        Failure::Panicked
    } else {
        Failure::Cancelled
    }))
}

fn failed_write<V, L>(_process: &mut Process<V, L>) -> Answer<V, L> {
    Answer::Write(Written::Failed(FAILED))
}

/// The first phase's answer, as calls of this module.
#[inline]
fn begun<'c, K, V, L, W>(
    stripe: &'c Stripe<K, V, L>,
    key: &Arc<K>,
    first: First<K, V, L>,
) -> Begun<'c, K, V, L, W> {
    let writer = PhantomData;
    match first {
        First::Done(reply) => Begun::Done(reply),
        First::Load(out) => {
            let held = Held::new(stripe, out, failed_load);
            Begun::Load(Ticket(AskedLoad { held, writer }))
        }
        First::Write(out) => {
            let held = Held::new(stripe, out, failed_write);
            Begun::Write(Ticket(AskedWrite { held, writer }))
        }
        First::Process(out, entry, may_load) => {
            let mut held = Held::new(stripe, out, Process::failed);
            held.process.entry = entry;
            held.process.may_load = may_load;
            Begun::Process(Ticket(Processing::new(held)))
        }
        First::Joined(out, join) => Begun::Joined(Join {
            stripe,
            out,
            join: Some(join),
            seat: None,
            writer,
        }),
        First::Busy(blocked) => Begun::Busy(Busy {
            stripe,
            key: key.clone(),
            blocked,
            seat: None,
        }),
    }
}

/// A call that asks the loader.
pub struct AskedLoad<'c, K, V, L, W> {
    held: Held<'c, K, V, L>,
    writer: PhantomData<fn() -> W>,
}

impl<K, V, L, W> Reserved for AskedLoad<'_, K, V, L, W> {
    fn set_asked(&mut self) {
        self.held.is_asked = true;
    }
}

impl<K, V, L, W> AskedLoad<'_, K, V, L, W> {
    /// The key to load.
    pub fn key(&self) -> &K {
        &self.held.out.key
    }

    /// Ends the call with what the loader answered. All calls that have joined this load get the same.
    ///
    /// # Errors
    /// [`Error::Loader`]: it failed, and nothing is cached.
    pub fn commit(self, loaded: Result<Option<V>, L>) -> Result<Reply<V>, Error<L, W>> {
        let loaded = loaded
            .map(|found| found.map(Arc::new))
            .map_err(|error| Failure::Error(Arc::new(error)));
        self.commit_shared(loaded)
    }

    /// The same; it answers what was loaded, also of a call that has no value for its reply.
    pub(crate) fn commit_value(
        self,
        loaded: Result<Option<V>, L>,
    ) -> Result<Option<Arc<V>>, Error<L, W>> {
        let loaded = loaded.map(|found| found.map(Arc::new));
        let value = loaded.as_ref().ok().cloned().flatten();
        let loaded = loaded.map_err(|error| Failure::Error(Arc::new(error)));
        self.commit_shared(loaded).map(|_| value)
    }

    /// Ends the call with an error of the loader that other calls have, too.
    pub(crate) fn commit_failed(self, error: Arc<L>) -> Result<Reply<V>, Error<L, W>> {
        self.commit_shared(Err(Failure::Error(error)))
    }

    /// Ends the call of a loader that has panicked.
    pub(crate) fn commit_panicked(self) -> Result<Reply<V>, Error<L, W>> {
        self.commit_shared(Err(Failure::Panicked))
    }

    fn commit_shared(mut self, loaded: Loaded<V, L>) -> Result<Reply<V>, Error<L, W>> {
        let failure = loaded.as_ref().err().cloned();
        match self.held.commit(&Answer::Load(loaded)) {
            Ok(reply) => Ok(reply),
            Err(_) => Err(failure.expect("the loader failed").at(self.held.at())),
        }
    }
}

/// What a writer is to do.
#[derive(Debug, PartialEq, Eq)]
pub enum Change<'a, V> {
    /// Write this value.
    Write(&'a V),
    /// Delete the key.
    Delete,
}

/// A call that asks the writer.
pub struct AskedWrite<'c, K, V, L, W> {
    held: Held<'c, K, V, L>,
    writer: PhantomData<fn() -> W>,
}

impl<K, V, L, W> Reserved for AskedWrite<'_, K, V, L, W> {
    fn set_asked(&mut self) {
        self.held.is_asked = true;
    }
}

impl<K, V, L, W> AskedWrite<'_, K, V, L, W> {
    /// The key to write or to delete.
    pub fn key(&self) -> &K {
        &self.held.out.key
    }

    /// What the writer is to do.
    pub fn change(&self) -> Change<'_, V> {
        let brought = self.held.out.brought.as_ref();
        match brought.and_then(|brought| brought.value.as_deref()) {
            Some(value) => Change::Write(value),
            None => Change::Delete,
        }
    }

    /// Ends the call with what the writer answered.
    ///
    /// # Errors
    /// [`Error::Writer`]: it failed, and the entry is as it was.
    pub fn commit(mut self, written: Result<(), W>) -> Result<Reply<V>, Error<L, W>> {
        match (self.end(written.is_ok()), written) {
            (Some(reply), _) => Ok(reply),
            (None, Err(error)) => Err(Error::Writer(error, self.held.at())),
            (None, Ok(())) => unreachable!("the writer has written"),
        }
    }

    /// The same; None: it failed.
    pub(crate) fn end(&mut self, is_written: bool) -> Option<Reply<V>> {
        self.held.commit(&Answer::Write(written(is_written))).ok()
    }
}

pub(crate) fn written(is_written: bool) -> Written {
    if is_written {
        Written::Done
    } else {
        Written::Failed(FAILED)
    }
}

/// A call that has joined another call's load. It is awaited, or waited for. Dropped, it gives up its answer.
///
/// A join needs one place of its stripe's history until it is picked up, also one that was dropped, until its load is over. So in a
/// stripe of a history shorter than the default joins of a slow load can keep calls at other keys [busy](Begun::Busy).
#[must_use]
pub struct Join<'c, K, V, L, W> {
    stripe: &'c Stripe<K, V, L>,
    out: Out<K, V, L>,
    /// None: it was picked up.
    join: Option<core::Join>,
    seat: Seat,
    writer: PhantomData<fn() -> W>,
}

/// What a joiner is told: the reply, or none if it is to begin anew, since the load was withdrawn or cancelled.
pub type Joined<V, L, W> = Result<Option<Reply<V>>, Error<L, W>>;

impl<K, V, L, W> Join<'_, K, V, L, W> {
    /// It was picked up.
    fn end(&mut self, picked: Option<Result<Reply<V>, Failure<L>>>) -> Joined<V, L, W> {
        self.join = None;
        match picked {
            Some(Err(Failure::Cancelled)) => Ok(None),
            picked => {
                let at = || self.stripe.name.at(Some(&self.out.key));
                picked.transpose().map_err(|failure| failure.at(at()))
            }
        }
    }

    /// Sleeps until the load is over. None: it was withdrawn or cancelled; begin anew.
    ///
    /// # Errors
    /// [`Error::Loader`], [`Error::LoaderPanicked`], [`Error::Limits`] of the load. [`Error::WouldDeadlock`]: this thread would wait
    /// for itself.
    ///
    /// # Panics
    /// If it was awaited to its end.
    pub fn wait(mut self) -> Joined<V, L, W> {
        let join = self.join.expect("it was not picked up");
        match self.stripe.wait_and_pick_up(&self.out, join) {
            Ok(picked) => self.end(picked),
            Err(stop) => Err(self.stripe.stopped(stop, &self.out.key)),
        }
    }
}

impl<K, V, L, W> Future for Join<'_, K, V, L, W> {
    type Output = Joined<V, L, W>;

    fn poll(mut self: Pin<&mut Self>, context: &mut Context<'_>) -> Poll<Self::Output> {
        let join = self.join.expect("it was not picked up");
        let waker = context.waker().clone();
        let it = &mut *self;
        match it.stripe.pick_up(&it.out, join, &mut it.seat, waker) {
            None => Poll::Pending,
            Some(picked) => Poll::Ready(it.end(picked)),
        }
    }
}

impl<K, V, L, W> Drop for Join<'_, K, V, L, W> {
    fn drop(&mut self) {
        if let Some(join) = self.join {
            self.stripe.abandon(&self.out, join, self.seat);
        }
    }
}

/// A call that was refused: its key is reserved, or the stripe has no room for it. Awaited, or waited for, it says when to begin anew.
#[must_use]
pub struct Busy<'c, K, V, L> {
    stripe: &'c Stripe<K, V, L>,
    key: Arc<K>,
    blocked: Blocked<V, L>,
    seat: Seat,
}

impl<K, V, L> Busy<'_, K, V, L> {
    /// Sleeps until the call may begin anew.
    ///
    /// # Errors
    /// [`Error::WouldDeadlock`]: this thread would wait for itself.
    pub fn wait<W>(self) -> Result<(), Error<L, W>> {
        let waited = self.stripe.wait(&self.blocked);
        waited.map_err(|stop| self.stripe.stopped(stop, &self.key))
    }
}

impl<K, V, L> Future for Busy<'_, K, V, L> {
    type Output = ();

    fn poll(mut self: Pin<&mut Self>, context: &mut Context<'_>) -> Poll<()> {
        let waker = context.waker().clone();
        let it = &mut *self;
        if it.stripe.poll(&it.blocked, &mut it.seat, waker) {
            Poll::Ready(())
        } else {
            Poll::Pending
        }
    }
}

impl<K, V, L> Drop for Busy<'_, K, V, L> {
    fn drop(&mut self) {
        if self.seat.is_some() {
            self.stripe.forget(&self.blocked, self.seat);
        }
    }
}

/// Begins a call at a stripe.
#[inline]
pub(crate) fn begin<'c, K: Eq, V, L, W>(
    stripe: &'c Stripe<K, V, L>,
    call: &Call<'_, K, V>,
) -> Result<Begun<'c, K, V, L, W>, Error<L, W>> {
    match stripe.begin(call) {
        Ok(first) => Ok(begun(stripe, call.key, first)),
        Err(stop) => Err(stripe.stopped(stop, call.key)),
    }
}
