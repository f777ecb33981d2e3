//! A cache of short byte strings, which the core keeps itself.
mod stripe;

use crate::at::{Name, shown};
use crate::core::{self, Statistics};
use crate::op::Reply;
use crate::outside::{Loader, NoLoader, NoWriter, Shared, Writer, in_call};
use crate::sizes::Sizes;
use crate::{BuildError, Error};
use std::fmt;
use std::sync::Arc;
use stripe::{First, Stripe};

/// A cache of keys of 1 to 32 bytes and values of 0 to 256, before a store that `L` reads and `W` changes.
///
/// The bytes are the core's own: what its contracts say, they say of these keys and values, and of the cache as one of so many
/// stripes. A key is of the stripe (sum of its bytes) mod stripes.
///
/// It has the calls of one key, [`clear`](BytesCache::clear), [`entries`](BytesCache::entries) and [`stats`](BytesCache::stats), as
/// [`Cache`](crate::Cache) has them, and waits, fails and passes panics on as that does. It has no expiry, no calls of many keys, no
/// processors and no phases for async code.
pub struct BytesCache<L = NoLoader, W = NoWriter>
where
    L: Loader<[u8], Vec<u8>>,
    W: Writer<[u8], [u8]>,
{
    stripes: Box<[Stripe<L::Error>]>,
    loader: L,
    writer: W,
}

impl<L: Loader<[u8], Vec<u8>>, W: Writer<[u8], [u8]>> fmt::Debug for BytesCache<L, W> {
    fn fmt(&self, f: &mut fmt::Formatter<'_>) -> fmt::Result {
        f.debug_struct("BytesCache")
            .field("stripes", &self.stripes.len())
            .finish_non_exhaustive()
    }
}

/// The error of a cache's calls.
pub type BytesError<L, W> =
    Error<<L as Loader<[u8], Vec<u8>>>::Error, <W as Writer<[u8], [u8]>>::Error>;

/// Builds a [`BytesCache`]. It is made by [`BytesCache::builder`].
#[derive(Clone, Debug)]
#[must_use]
pub struct BytesBuilder<L = NoLoader, W = NoWriter> {
    name: Option<Arc<str>>,
    sizes: Sizes,
    read_through: bool,
    write_through: bool,
    loader: L,
    writer: W,
}

impl BytesCache {
    /// Begins to build a cache: 65,536 entries in 16 stripes, no loader, no writer.
    pub fn builder() -> BytesBuilder {
        BytesBuilder {
            name: None,
            sizes: Sizes::default(),
            read_through: false,
            write_through: false,
            loader: NoLoader,
            writer: NoWriter,
        }
    }
}

impl<L, W> BytesBuilder<L, W> {
    /// What errors call this cache: with a name they say of which cache they are and of which key.
    pub fn name(mut self, name: impl Into<Arc<str>>) -> Self {
        self.name = Some(name.into());
        self
    }

    /// How many entries the whole cache has room for: at least 1, and 1 to 4,096 for each stripe; without it 65,536.
    pub fn capacity(mut self, entries: usize) -> Self {
        self.sizes.capacity = Some(entries);
        self
    }

    /// How many stripes: 1 to 64; without it as a [`Cache`](crate::Builder::stripes) of that capacity has.
    pub fn stripes(mut self, stripes: usize) -> Self {
        self.sizes.stripes = Some(stripes);
        self
    }

    /// How many events of each stripe's history, 16 to 65,536: see [`Builder::history`](crate::Builder::history).
    pub fn history(mut self, events: usize) -> Self {
        self.sizes.history = Some(events);
        self
    }

    /// What reads the store; with it a `get` of a missing key asks it.
    pub fn loader<N: Loader<[u8], Vec<u8>>>(self, loader: N) -> BytesBuilder<N, W> {
        BytesBuilder {
            name: self.name,
            sizes: self.sizes,
            read_through: true,
            write_through: self.write_through,
            loader,
            writer: self.writer,
        }
    }

    /// What changes the store; with it a mutation is written first.
    pub fn writer<N: Writer<[u8], [u8]>>(self, writer: N) -> BytesBuilder<L, N> {
        BytesBuilder {
            name: self.name,
            sizes: self.sizes,
            read_through: self.read_through,
            write_through: true,
            loader: self.loader,
            writer,
        }
    }

    /// What reads the store and changes it.
    pub fn store<T>(self, store: Arc<T>) -> BytesBuilder<Shared<T>, Shared<T>>
    where
        T: Loader<[u8], Vec<u8>> + Writer<[u8], [u8]>,
    {
        self.loader(Shared(store.clone())).writer(Shared(store))
    }

    /// The cache.
    ///
    /// # Errors
    /// [`BuildError::Option`]: an option is out of its limits. [`BuildError::NoMemory`]. [`BuildError::Version`]: `CADWRELCH_CORE` named
    /// a library of another version at the build.
    pub fn build(self) -> Result<BytesCache<L, W>, BuildError>
    where
        L: Loader<[u8], Vec<u8>>,
        W: Writer<[u8], [u8]>,
    {
        let shapes = self
            .sizes
            .shapes(core::STRIPES_MAX, self.read_through, self.write_through)?;
        let show = |key: &[u8]| shown(&format_args!("b\"{}\"", key.escape_ascii()));
        let name = self.name.map_or(Name::NONE, |name| Name::new(name, show));
        let stripes: Result<_, core::Code> = shapes
            .enumerate()
            .map(|(number, shape)| Stripe::open(&shape, number, name.clone()))
            .collect();
        Ok(BytesCache {
            stripes: stripes?,
            loader: self.loader,
            writer: self.writer,
        })
    }
}

impl<L, W> BytesCache<L, W>
where
    L: Loader<[u8], Vec<u8>>,
    W: Writer<[u8], [u8]>,
{
    /// The value of a key: the cached one, or what the loader finds. If another call is loading the key, it joins that load.
    ///
    /// # Errors
    /// [`Error::Loader`], [`Error::LoaderPanicked`], [`Error::Limits`], [`Error::WouldDeadlock`], [`Error::Closed`]: nothing is cached.
    pub fn get(&self, key: &[u8]) -> Result<Option<Vec<u8>>, BytesError<L, W>> {
        match self.stripe(key).hit(key) {
            Some(value) => Ok(Some(value)),
            None => self.value(core::Op::Get, key),
        }
    }

    /// Whether a key is cached. The loader isn't asked.
    ///
    /// # Errors
    /// [`Error::Limits`], [`Error::WouldDeadlock`], [`Error::Closed`].
    pub fn contains_key(&self, key: &[u8]) -> Result<bool, BytesError<L, W>> {
        self.flag(core::Op::ContainsKey, key)
    }

    /// Writes and caches a value.
    ///
    /// # Errors
    /// [`Error::Writer`], [`Error::Limits`], [`Error::WouldDeadlock`], [`Error::Closed`]: the entry is as it was.
    pub fn put(&self, key: &[u8], value: &[u8]) -> Result<(), BytesError<L, W>> {
        self.call(core::Op::Put(value), key).map(drop)
    }

    /// Writes and caches a value. It returns the value that was cached.
    ///
    /// # Errors
    /// [`Error::Writer`], [`Error::Limits`], [`Error::WouldDeadlock`], [`Error::Closed`]: the entry is as it was.
    pub fn get_and_put(
        &self,
        key: &[u8],
        value: &[u8],
    ) -> Result<Option<Vec<u8>>, BytesError<L, W>> {
        self.value(core::Op::GetAndPut(value), key)
    }

    /// Writes and caches a value if none is cached, and says whether.
    ///
    /// # Errors
    /// [`Error::Writer`], [`Error::Limits`], [`Error::WouldDeadlock`], [`Error::Closed`]: the entry is as it was.
    pub fn put_if_absent(&self, key: &[u8], value: &[u8]) -> Result<bool, BytesError<L, W>> {
        self.flag(core::Op::PutIfAbsent(value), key)
    }

    /// Deletes a key from store and cache, and says whether it was cached.
    ///
    /// # Errors
    /// [`Error::Writer`], [`Error::Limits`], [`Error::WouldDeadlock`], [`Error::Closed`]: the entry is as it was.
    pub fn remove(&self, key: &[u8]) -> Result<bool, BytesError<L, W>> {
        self.flag(core::Op::Remove, key)
    }

    /// Deletes a key from store and cache if this value is cached, and says whether.
    ///
    /// # Errors
    /// [`Error::Writer`], [`Error::Limits`], [`Error::WouldDeadlock`], [`Error::Closed`]: the entry is as it was.
    pub fn remove_if(&self, key: &[u8], old: &[u8]) -> Result<bool, BytesError<L, W>> {
        self.flag(core::Op::RemoveIf(old), key)
    }

    /// Deletes a key from store and cache. It returns the value that was cached.
    ///
    /// # Errors
    /// [`Error::Writer`], [`Error::Limits`], [`Error::WouldDeadlock`], [`Error::Closed`]: the entry is as it was.
    pub fn get_and_remove(&self, key: &[u8]) -> Result<Option<Vec<u8>>, BytesError<L, W>> {
        self.value(core::Op::GetAndRemove, key)
    }

    /// Writes and caches a value if one is cached, and says whether.
    ///
    /// # Errors
    /// [`Error::Writer`], [`Error::Limits`], [`Error::WouldDeadlock`], [`Error::Closed`]: the entry is as it was.
    pub fn replace(&self, key: &[u8], value: &[u8]) -> Result<bool, BytesError<L, W>> {
        self.flag(core::Op::Replace(value), key)
    }

    /// Writes and caches a value if `old` is cached, and says whether.
    ///
    /// # Errors
    /// [`Error::Writer`], [`Error::Limits`], [`Error::WouldDeadlock`], [`Error::Closed`]: the entry is as it was.
    pub fn replace_if(&self, key: &[u8], old: &[u8], new: &[u8]) -> Result<bool, BytesError<L, W>> {
        self.flag(core::Op::ReplaceIf { old, new }, key)
    }

    /// Writes and caches a value if one is cached, and returns that one.
    ///
    /// # Errors
    /// [`Error::Writer`], [`Error::Limits`], [`Error::WouldDeadlock`], [`Error::Closed`]: the entry is as it was.
    pub fn get_and_replace(
        &self,
        key: &[u8],
        value: &[u8],
    ) -> Result<Option<Vec<u8>>, BytesError<L, W>> {
        self.value(core::Op::GetAndReplace(value), key)
    }

    /// Uncaches all keys that are cached now, one after the other. The store keeps them, and the writer isn't asked. It waits for keys
    /// that others have reserved.
    ///
    /// # Errors
    /// [`Error::WouldDeadlock`], [`Error::Closed`]: keys that it hasn't reached are as they were.
    pub fn clear(&self) -> Result<(), BytesError<L, W>> {
        for (key, _) in self.entries()? {
            self.call(core::Op::Clear, &key)?;
        }
        Ok(())
    }

    /// Forgets a key, of which the store has another value by now: see [`Cache::invalidate`](crate::Cache::invalidate).
    ///
    /// The core does it, so it is proved that no call which begins later is answered from what was cached or reserved before. It has
    /// no memory to note a key that isn't reserved: if the history of the key's stripe is full of answers that others have to pick up,
    /// all entries of that stripe are forgotten with it.
    pub fn invalidate(&self, key: &[u8]) {
        self.stripe(key).invalidate(key);
    }

    /// The same of all keys.
    pub fn invalidate_all(&self) {
        self.stripes.iter().for_each(|it| it.invalidate_all(None));
    }

    /// Forgets all keys, and keeps nothing until [`resume`](BytesCache::resume): see [`Cache::suspend`](crate::Cache::suspend).
    pub fn suspend(&self) {
        for stripe in &self.stripes {
            stripe.invalidate_all(Some(false));
        }
    }

    /// Forgets all keys once more, and keeps what is read and written from now on.
    pub fn resume(&self) {
        for stripe in &self.stripes {
            stripe.invalidate_all(Some(true));
        }
    }

    /// Whether the cache keeps nothing, since it was [suspended](BytesCache::suspend).
    pub fn is_suspended(&self) -> bool {
        self.stripes.iter().any(Stripe::is_suspended)
    }

    /// What is cached, stripe by stripe, in each the most recently used first.
    ///
    /// # Errors
    /// [`Error::Closed`].
    ///
    /// # Panics
    /// If there is no memory for the list.
    pub fn entries(&self) -> Result<Vec<(Vec<u8>, Vec<u8>)>, BytesError<L, W>> {
        let mut entries = Vec::new();
        for stripe in &self.stripes {
            entries.append(&mut stripe.entries().map_err(|it| stripe.stopped(it, None))?);
        }
        Ok(entries)
    }

    /// The loader.
    pub fn loader(&self) -> &L {
        &self.loader
    }

    /// The writer.
    pub fn writer(&self) -> &W {
        &self.writer
    }

    /// Hits, misses, puts, removals and evictions since the cache was built.
    ///
    /// # Errors
    /// [`Error::Closed`].
    #[allow(clippy::missing_panics_doc)] // a desk that is open has counts
    pub fn stats(&self) -> Result<Statistics, BytesError<L, W>> {
        let mut sum = Statistics::default();
        for stripe in &self.stripes {
            let side = stripe.open_side().map_err(|it| stripe.stopped(it, None));
            let counts = side?.desk.statistics();
            sum = sum + counts.expect("the desk is open");
        }
        Ok(sum)
    }

    /// How many threads sleep in calls of this cache: see [`Cache::waiting`](crate::Cache::waiting).
    pub fn waiting(&self) -> usize {
        self.stripes.iter().map(Stripe::waiting).sum()
    }

    /// Closes the cache: later calls, and those that wait to begin, fail with [`Error::Closed`]. Calls under way end as they would.
    pub fn close(&self) {
        for stripe in &self.stripes {
            stripe.close();
        }
    }

    fn stripe(&self, key: &[u8]) -> &Stripe<L::Error> {
        let sum: usize = key.iter().map(|byte| usize::from(*byte)).sum();
        &self.stripes[sum % self.stripes.len()]
    }

    fn value(&self, op: core::Op<'_>, key: &[u8]) -> Result<Option<Vec<u8>>, BytesError<L, W>> {
        match self.call(op, key)? {
            Reply::Value(value) => Ok(value.map(Arc::unwrap_or_clone)),
            _ => unreachable!("the operation answers a value"),
        }
    }

    fn flag(&self, op: core::Op<'_>, key: &[u8]) -> Result<bool, BytesError<L, W>> {
        match self.call(op, key)? {
            Reply::Flag(flag) => Ok(flag),
            _ => unreachable!("the operation answers yes or no"),
        }
    }

    /// A whole call: phases, and whom they ask between.
    fn call(&self, op: core::Op<'_>, key: &[u8]) -> Result<Reply<Vec<u8>>, BytesError<L, W>> {
        let stripe = self.stripe(key);
        let stopped = |stop| stripe.stopped(stop, Some(key));
        loop {
            match stripe.begin(op, key).map_err(stopped)? {
                First::Done(reply) => return Ok(reply),
                First::Load(asked) => {
                    let loaded = in_call(|| self.loader.load(key));
                    return asked.commit_load(loaded);
                }
                First::Write(mut asked, value) => {
                    let written = in_call(|| match &value {
                        Some(value) => self.writer.write(key, value),
                        None => self.writer.delete(key),
                    });
                    return match (asked.commit_write(written.is_ok()), written) {
                        (Some(reply), _) => Ok(reply),
                        (None, Err(error)) => Err(Error::Writer(error, stripe.name.at(Some(key)))),
                        (None, Ok(())) => unreachable!("the writer has written"),
                    };
                }
                First::Joined(join, flight) => {
                    let picked = stripe.wait_and_pick_up(join, &flight, key);
                    if let Some(reply) = picked.map_err(stopped)? {
                        return reply.map_err(|it| it.at(stripe.name.at(Some(key))));
                    }
                }
                First::Busy(blocked) => stripe.wait(&blocked).map_err(stopped)?,
            }
        }
    }
}
