//! A call whose processor runs.
use crate::Error;
use crate::at::At;
use crate::call::{Change, Held, written};
use crate::core::Written;
use crate::step::{Answer, Effect, Fault, Loaded};
use crate::table::Failure;
use std::marker::PhantomData;
use std::sync::Arc;
use std::sync::atomic::{AtomicBool, Ordering::Relaxed};
use std::time::Duration;

/// A call that has reserved its key.
pub trait Reserved {
    /// From now on it can't be withdrawn.
    fn set_asked(&mut self);
}

/// What a processor has seen and done so far.
pub(crate) struct Process<V, L> {
    pub entry: Option<Arc<V>>,
    pub may_load: bool,
    /// Whether the loader is being asked, and has not answered. If the processor goes on all the same, the loader has panicked.
    is_loading: bool,
    load: Option<Loaded<V, L>>,
    effect: Effect<V>,
    /// How long the value lives that was set, if it has a life of its own.
    life: Option<Duration>,
    /// Whether the value was looked at.
    has_read: AtomicBool,
    /// Whether the writer is being asked, and has not answered.
    is_writing: bool,
}

impl<V, L> Default for Process<V, L> {
    fn default() -> Self {
        Process {
            entry: None,
            may_load: false,
            is_loading: false,
            load: None,
            effect: Effect::Keep,
            life: None,
            has_read: AtomicBool::new(false),
            is_writing: false,
        }
    }
}

impl<V, L> Process<V, L> {
    fn has_failed_load(&self) -> bool {
        self.is_loading || matches!(self.load, Some(Err(_)))
    }

    fn load_failure(&self) -> Option<Failure<L>> {
        match &self.load {
            Some(Err(failure)) => Some(failure.clone()),
            _ if self.is_loading => Some(Failure::Panicked),
            _ => None,
        }
    }

    fn set(&mut self, value: Arc<V>, life: Option<Duration>) {
        if !self.has_failed_load() {
            self.entry = Some(value.clone());
            self.effect = Effect::Set(value);
            self.life = life;
        }
    }

    fn change(&self) -> Option<Change<'_, V>> {
        match &self.effect {
            _ if self.has_failed_load() => None,
            Effect::Set(value) => Some(Change::Write(value)),
            Effect::Remove => Some(Change::Delete),
            Effect::Keep | Effect::Failed => None,
        }
    }

    /// What is told of a processor that panicked, or whose loader or writer did.
    pub(crate) fn failed(&mut self) -> Answer<V, L> {
        if !self.is_writing {
            self.effect = Effect::Failed;
        }
        self.answer(self.is_writing.then(|| written(false)))
    }

    fn answer(&mut self, write: Option<Written>) -> Answer<V, L> {
        if self.is_loading {
            self.load = Some(Err(Failure::Panicked));
        }
        Answer::Process {
            load: self.load.take(),
            effect: std::mem::replace(&mut self.effect, Effect::Keep),
            write,
            has_read: self.has_read.load(Relaxed),
            life: self.life,
        }
    }
}

/// A call whose processor runs on its entry.
///
/// The entry's value is asked of the loader if [`must_load`](Processing::must_load) says so: [`start_load`](Processing::start_load),
/// then [`loaded`](Processing::loaded). When the processor has ended, [`change`](Processing::change) says what the writer is to do:
/// [`start_write`](Processing::start_write), then [`commit`](Processing::commit).
pub struct Processing<'c, K, V, L, W> {
    held: Held<'c, K, V, L>,
    writer: PhantomData<fn() -> W>,
}

impl<K, V, L, W> Reserved for Processing<'_, K, V, L, W> {
    fn set_asked(&mut self) {
        self.held.is_asked = true;
    }
}

impl<'c, K, V, L, W> Processing<'c, K, V, L, W> {
    pub(crate) fn new(held: Held<'c, K, V, L>) -> Self {
        Processing {
            held,
            writer: PhantomData,
        }
    }

    /// The entry's key.
    pub fn key(&self) -> &K {
        &self.held.out.key
    }

    /// Whether a look at the value has to ask the loader first: with read-through, if the entry is missing and nothing has set or
    /// removed it.
    pub fn must_load(&self) -> bool {
        let process = &self.held.process;
        process.may_load
            && !process.is_loading
            && process.load.is_none()
            && matches!(process.effect, Effect::Keep)
    }

    /// The loader is being asked: it is to be. If its answer never comes, because it panicked, the call fails with
    /// [`Error::LoaderPanicked`], whatever the processor does.
    ///
    /// # Panics
    /// If [`must_load`](Processing::must_load) is false. The call fails then as if the processor had.
    pub fn start_load(&mut self) {
        assert!(self.must_load(), "the loader was not to be asked");
        self.held.process.is_loading = true;
    }

    /// What the loader answered. If it failed the call will fail, whatever the processor does.
    ///
    /// # Panics
    /// If the loader was not to be asked. The call fails then as if the processor had.
    pub fn loaded(&mut self, loaded: Result<Option<V>, L>) {
        let is_asked = self.held.process.is_loading || self.must_load();
        assert!(is_asked, "the loader was not to be asked");
        let process = &mut self.held.process;
        process.is_loading = false;
        process.load = Some(match loaded {
            Ok(found) => {
                process.entry = found.map(Arc::new);
                Ok(process.entry.clone())
            }
            Err(error) => Err(Failure::Error(Arc::new(error))),
        });
    }

    /// Whether there is a value, as far as it is known: nobody is asked.
    pub fn exists(&self) -> bool {
        self.held.process.entry.is_some()
    }

    /// The value, as it is after what the processor has done so far.
    ///
    /// # Errors
    /// [`Error::Loader`], [`Error::LoaderPanicked`]: a load failed, or has begun and has no answer.
    pub fn value(&self) -> Result<Option<&Arc<V>>, Error<L, W>> {
        let process = &self.held.process;
        process.has_read.store(true, Relaxed);
        match process.load_failure() {
            Some(failure) => Err(failure.at(self.held.at())),
            None => Ok(process.entry.as_ref()),
        }
    }

    /// Sets the value. After a failed load it changes nothing.
    pub fn set(&mut self, value: impl Into<Arc<V>>) {
        self.held.process.set(value.into(), None);
    }

    /// Sets the value, which lives so long: see [`Cache::put_for`](crate::Cache::put_for).
    pub fn set_for(&mut self, value: impl Into<Arc<V>>, life: Duration) {
        self.held.stripe.lives.turn_on();
        self.held.process.set(value.into(), Some(life));
    }

    /// Removes the entry. After a failed load it changes nothing.
    pub fn remove(&mut self) {
        let process = &mut self.held.process;
        if !process.has_failed_load() {
            process.entry = None;
            process.effect = Effect::Remove;
        }
    }

    /// What the writer is to do, with write-through: the net effect. None: it isn't asked.
    pub fn change(&self) -> Option<Change<'_, V>> {
        if self.held.stripe.has_write_through {
            self.held.process.change()
        } else {
            None
        }
    }

    /// The writer is being asked: there is a change.
    ///
    /// # Panics
    /// If there is none. The call fails then as if the processor had.
    pub fn start_write(&mut self) {
        assert!(self.change().is_some(), "the writer was not to be asked");
        self.held.process.is_writing = true;
    }

    /// Ends the call with what the writer answered: it is asked if there is a change, and only then.
    ///
    /// # Errors
    /// [`Error::Loader`], [`Error::LoaderPanicked`] after a failed load, [`Error::Writer`]. The entry is as it was.
    ///
    /// # Panics
    /// If the writer was asked without a change, or not asked with one. The call fails then as if the processor had.
    pub fn commit(mut self, write: Option<Result<(), W>>) -> Result<(), Error<L, W>> {
        assert_eq!(
            write.is_some(),
            self.change().is_some(),
            "the writer is asked just if there is a change"
        );
        let told = write.as_ref().map(|result| written(result.is_ok()));
        let failure = self.held.process.load_failure();
        let answer = self.held.process.answer(told);
        match self.held.commit(&answer) {
            Ok(_) => Ok(()),
            Err(Fault::Loader) => Err(failure.expect("the loader failed").at(self.held.at())),
            Err(_) => match write {
                Some(Err(error)) => Err(Error::Writer(error, self.held.at())),
                _ => unreachable!("the writer failed"),
            },
        }
    }

    /// Ends the call with whether a writer of many keys has written its change; None: there is none. The error of a load that failed; of
    /// a writer that did, None.
    pub(crate) fn end(mut self, is_written: Option<bool>) -> Result<(), Option<Error<L, W>>> {
        let failure = self.held.process.load_failure();
        let answer = self.held.process.answer(is_written.map(written));
        match self.held.commit(&answer) {
            Ok(_) => Ok(()),
            Err(_) => Err(failure.map(|it| it.at(self.held.at()))),
        }
    }

    /// Ends the call with a failure of the processor: nothing of it counts. It returns that error, or that of a load, which comes
    /// before it.
    pub fn fail(self, error: impl Into<Box<dyn std::error::Error + Send + Sync>>) -> Error<L, W> {
        self.end_failed(Error::processor(error))
    }

    /// The same, with what the processor returned.
    pub(crate) fn end_failed(mut self, error: Error<L, W>) -> Error<L, W> {
        let failure = self.held.process.load_failure();
        self.held.process.effect = Effect::Failed;
        let answer = self.held.process.answer(None);
        let _ = self.held.commit(&answer);
        match (failure, error) {
            (Some(failure), _) => failure.at(self.held.at()),
            (None, Error::Processor(error, At(None))) => Error::Processor(error, self.held.at()),
            (None, error) => error,
        }
    }
}
