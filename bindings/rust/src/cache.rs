//! The cache.
use crate::Error;
use crate::at::At;
use crate::builder::Builder;
use crate::call::{self, Begun, Change};
use crate::core::Statistics;
use crate::hashing::Hashing;
use crate::lives::Lives;
use crate::op::{Expected, Op, Reply};
use crate::outside::{Loader, NoLoader, NoWriter, Writer, in_call};
use crate::step::{Call, Owner, Stop};
use crate::stripe::{Stripe, of_hash};
use std::borrow::Borrow;
use std::fmt;
use std::hash::{BuildHasher, Hash};
use std::sync::Arc;
use std::time::Duration;

/// A cache of keys `K` and values `V` before a store that `L` reads and `W` changes.
///
/// It is shared by reference, or in an [`Arc`], and all of its methods take `&self`. A value is kept and handed out as an `Arc<V>`, so
/// it is never copied; methods that take a value take a `V` or an `Arc<V>`. A method that only looks at a key takes any borrowed form
/// of it, as those of `HashMap` do.
///
/// - A `get` of a missing key asks the loader; calls for the same key meanwhile join that load.
/// - A mutation is written first, and is in the cache when the writer has written.
/// - No lock is held while a loader, a writer, a processor, a policy, a clock, or any method of a key or a value runs, but for `Eq` of
///   keys: as in a map in a `Mutex`, it must not call the cache. While one call has reserved a key, other calls at this key wait, and
///   all others don't; a `contains_key`, and a `get` that finds the entry, don't wait either.
/// - A loader, writer or processor may call the cache at other keys. Where it would wait for itself it gets
///   [`Error::WouldDeadlock`].
///
/// Which keys are evicted is decided in each stripe, which has its part of the keys and its own order of use.
///
/// A panic of a loader, a writer or a processor goes on once its call has been ended as failed; of one of a key's or a value's methods
/// it goes on, and nothing was done. No panic of theirs leaves a key reserved, or a lock.
pub struct Cache<K, V, L = NoLoader, W = NoWriter>
where
    L: Loader<K, V>,
    W: Writer<K, V>,
{
    stripes: Arc<[Stripe<K, V, L::Error>]>,
    lives: Arc<Lives<K, V>>,
    hashing: Hashing,
    loader: Arc<L>,
    writer: W,
}

impl<K, V, L: Loader<K, V>, W: Writer<K, V>> fmt::Debug for Cache<K, V, L, W> {
    fn fmt(&self, f: &mut fmt::Formatter<'_>) -> fmt::Result {
        f.debug_struct("Cache")
            .field("stripes", &self.stripes.len())
            .finish_non_exhaustive()
    }
}

/// The error of a cache's calls.
pub type CacheError<K, V, L, W> = Error<<L as Loader<K, V>>::Error, <W as Writer<K, V>>::Error>;

/// What a first phase of a cache's calls asks for.
pub type CacheBegun<'c, K, V, L, W> =
    Begun<'c, K, V, <L as Loader<K, V>>::Error, <W as Writer<K, V>>::Error>;

impl<K, V> Cache<K, V> {
    /// Begins to build a cache: 65,536 entries in 16 stripes, no loader, no writer, and entries that don't expire.
    pub fn builder() -> Builder<K, V> {
        Builder::new()
    }
}

/// Calls of one key.
///
/// A call waits while another one has reserved the key, or the stripe has no room for it.
impl<K, V, L, W> Cache<K, V, L, W>
where
    K: Eq + Hash,
    L: Loader<K, V>,
    W: Writer<K, V>,
{
    /// The value of a key: the cached one, or what the loader finds. If another call is loading the key, it joins that load.
    ///
    /// # Errors
    /// [`Error::Loader`], [`Error::LoaderPanicked`], [`Error::WouldDeadlock`], [`Error::Closed`]: nothing is cached.
    pub fn get<Q>(&self, key: &Q) -> Result<Option<Arc<V>>, CacheError<K, V, L, W>>
    where
        K: Borrow<Q>,
        Q: Eq + Hash + ToOwned<Owned = K> + ?Sized,
    {
        let hash = self.hashing.hash_one(key);
        match self.hit(hash, |held| held.borrow() == key) {
            Some(found) => Ok(found),
            None => value_of(self.call_at(Arc::new(key.to_owned()), hash, &Op::Get, None)),
        }
    }

    /// Whether a key is cached. The loader isn't asked.
    ///
    /// # Errors
    /// [`Error::WouldDeadlock`], [`Error::Closed`].
    pub fn contains_key<Q>(&self, key: &Q) -> Result<bool, CacheError<K, V, L, W>>
    where
        K: Borrow<Q>,
        Q: Hash + ToOwned<Owned = K> + ?Sized,
    {
        flag_of(self.call(key.to_owned(), &Op::ContainsKey))
    }

    /// Writes and caches a value.
    ///
    /// # Errors
    /// [`Error::Writer`], [`Error::WouldDeadlock`], [`Error::Closed`]: the entry is as it was.
    pub fn put(&self, key: K, value: impl Into<Arc<V>>) -> Result<(), CacheError<K, V, L, W>> {
        self.call(key, &Op::Put(value.into())).map(drop)
    }

    /// Writes and caches a value. It returns the value that was cached.
    ///
    /// # Errors
    /// [`Error::Writer`], [`Error::WouldDeadlock`], [`Error::Closed`]: the entry is as it was.
    pub fn get_and_put(
        &self,
        key: K,
        value: impl Into<Arc<V>>,
    ) -> Result<Option<Arc<V>>, CacheError<K, V, L, W>> {
        value_of(self.call(key, &Op::GetAndPut(value.into())))
    }

    /// Writes and caches a value if none is cached, and says whether.
    ///
    /// # Errors
    /// [`Error::Writer`], [`Error::WouldDeadlock`], [`Error::Closed`]: the entry is as it was.
    pub fn put_if_absent(
        &self,
        key: K,
        value: impl Into<Arc<V>>,
    ) -> Result<bool, CacheError<K, V, L, W>> {
        flag_of(self.call(key, &Op::PutIfAbsent(value.into())))
    }

    /// Deletes a key from store and cache, and says whether it was cached.
    ///
    /// # Errors
    /// [`Error::Writer`], [`Error::WouldDeadlock`], [`Error::Closed`]: the entry is as it was.
    pub fn remove<Q>(&self, key: &Q) -> Result<bool, CacheError<K, V, L, W>>
    where
        K: Borrow<Q>,
        Q: Hash + ToOwned<Owned = K> + ?Sized,
    {
        flag_of(self.call(key.to_owned(), &Op::Remove))
    }

    /// Deletes a key from store and cache if this value is cached, and says whether.
    ///
    /// # Errors
    /// [`Error::Writer`], [`Error::WouldDeadlock`], [`Error::Closed`]: the entry is as it was.
    pub fn remove_if<Q>(
        &self,
        key: &Q,
        old: impl Into<Arc<V>>,
    ) -> Result<bool, CacheError<K, V, L, W>>
    where
        K: Borrow<Q>,
        Q: Hash + ToOwned<Owned = K> + ?Sized,
        V: PartialEq,
    {
        flag_of(self.call(key.to_owned(), &Op::RemoveIf(Expected::equal_to(old))))
    }

    /// Deletes a key from store and cache. It returns the value that was cached.
    ///
    /// # Errors
    /// [`Error::Writer`], [`Error::WouldDeadlock`], [`Error::Closed`]: the entry is as it was.
    pub fn get_and_remove<Q>(&self, key: &Q) -> Result<Option<Arc<V>>, CacheError<K, V, L, W>>
    where
        K: Borrow<Q>,
        Q: Hash + ToOwned<Owned = K> + ?Sized,
    {
        value_of(self.call(key.to_owned(), &Op::GetAndRemove))
    }

    /// Writes and caches a value if one is cached, and says whether.
    ///
    /// # Errors
    /// [`Error::Writer`], [`Error::WouldDeadlock`], [`Error::Closed`]: the entry is as it was.
    pub fn replace(
        &self,
        key: K,
        value: impl Into<Arc<V>>,
    ) -> Result<bool, CacheError<K, V, L, W>> {
        flag_of(self.call(key, &Op::Replace(value.into())))
    }

    /// Writes and caches a value if `old` is cached, and says whether.
    ///
    /// # Errors
    /// [`Error::Writer`], [`Error::WouldDeadlock`], [`Error::Closed`]: the entry is as it was.
    pub fn replace_if(
        &self,
        key: K,
        old: impl Into<Arc<V>>,
        new: impl Into<Arc<V>>,
    ) -> Result<bool, CacheError<K, V, L, W>>
    where
        V: PartialEq,
    {
        let op = Op::ReplaceIf {
            old: Expected::equal_to(old),
            new: new.into(),
        };
        flag_of(self.call(key, &op))
    }

    /// Writes and caches a value if one is cached, and returns that one.
    ///
    /// # Errors
    /// [`Error::Writer`], [`Error::WouldDeadlock`], [`Error::Closed`]: the entry is as it was.
    pub fn get_and_replace(
        &self,
        key: K,
        value: impl Into<Arc<V>>,
    ) -> Result<Option<Arc<V>>, CacheError<K, V, L, W>> {
        value_of(self.call(key, &Op::GetAndReplace(value.into())))
    }

    fn call(&self, key: K, op: &Op<V>) -> Result<Reply<V>, CacheError<K, V, L, W>> {
        let hash = self.hashing.hash_one(&key);
        self.call_at(Arc::new(key), hash, op, None)
    }

    /// The same, with a value that lives so long.
    pub(crate) fn call_for(
        &self,
        key: K,
        op: &Op<V>,
        life: Duration,
    ) -> Result<Reply<V>, CacheError<K, V, L, W>> {
        self.lives.turn_on();
        let hash = self.hashing.hash_one(&key);
        self.call_at(Arc::new(key), hash, op, Some(life))
    }

    /// A whole call: phases, and whom they ask between.
    fn call_at(
        &self,
        key: Arc<K>,
        hash: u64,
        op: &Op<V>,
        life: Option<Duration>,
    ) -> Result<Reply<V>, CacheError<K, V, L, W>> {
        loop {
            match self.begin_at(&key, hash, op, life, Owner::ThisThread)? {
                Begun::Done(reply) => return Ok(reply),
                Begun::Load(ticket) => {
                    let asked = ticket.ask();
                    let loaded = in_call(|| self.loader.load(asked.key()));
                    return asked.commit(loaded);
                }
                Begun::Write(ticket) => {
                    let asked = ticket.ask();
                    let written = self.write(asked.key(), asked.change());
                    return asked.commit(written);
                }
                Begun::Process(_) => unreachable!("no processor was begun"),
                Begun::Joined(join) => {
                    if let Some(reply) = join.wait()? {
                        return Ok(reply);
                    }
                }
                Begun::Busy(busy) => busy.wait()?,
            }
        }
    }

    pub(crate) fn write(&self, key: &K, change: Change<'_, V>) -> Result<(), W::Error> {
        in_call(|| match change {
            Change::Write(value) => self.writer.write(key, value),
            Change::Delete => self.writer.delete(key),
        })
    }

    /// The first phase of a call, for callers that ask the store themselves: see [`call`]. It never waits.
    ///
    /// # Errors
    /// [`Error::Closed`].
    pub fn begin(
        &self,
        key: K,
        op: &Op<V>,
    ) -> Result<CacheBegun<'_, K, V, L, W>, CacheError<K, V, L, W>> {
        let hash = self.hash_of(&key);
        self.begin_at(&Arc::new(key), hash, op, None, Owner::Anybody)
    }

    pub(crate) fn hash_of<Q: Hash + ?Sized>(&self, key: &Q) -> u64 {
        self.hashing.hash_one(key)
    }

    /// What a `get` finds that needs no other phase.
    #[inline]
    pub(crate) fn hit(&self, hash: u64, is_key: impl Fn(&K) -> bool) -> Option<Option<Arc<V>>> {
        self.stripe(hash).hit(hash, is_key)
    }

    pub(crate) fn reads_through(&self) -> bool {
        self.stripes[0].has_read_through
    }

    pub(crate) fn begin_at(
        &self,
        key: &Arc<K>,
        hash: u64,
        op: &Op<V>,
        life: Option<Duration>,
        owner: Owner,
    ) -> Result<CacheBegun<'_, K, V, L, W>, CacheError<K, V, L, W>> {
        let call = Call {
            key,
            hash,
            op,
            life,
            owner,
        };
        call::begin(self.stripe(hash), &call)
    }
}

/// The cache as a whole. None of these calls waits for another one.
impl<K, V, L, W> Cache<K, V, L, W>
where
    L: Loader<K, V>,
    W: Writer<K, V>,
{
    pub(crate) fn new(
        stripes: Arc<[Stripe<K, V, L::Error>]>,
        lives: Arc<Lives<K, V>>,
        loader: Arc<L>,
        writer: W,
    ) -> Self {
        Cache {
            stripes,
            lives,
            hashing: Hashing::new(),
            loader,
            writer,
        }
    }

    pub(crate) fn stripe(&self, hash: u64) -> &Stripe<K, V, L::Error> {
        of_hash(&self.stripes, hash)
    }

    pub(crate) fn stripes(&self) -> &[Stripe<K, V, L::Error>] {
        &self.stripes
    }

    pub(crate) fn lives(&self) -> &Lives<K, V> {
        &self.lives
    }

    /// Where a call has failed that is of no single key.
    pub(crate) fn at(&self) -> At {
        self.stripes[0].name.at(None)
    }

    fn stopped(&self, stop: Stop) -> CacheError<K, V, L, W> {
        stop.at(self.at())
    }

    /// The loader.
    pub fn loader(&self) -> &L {
        &self.loader
    }

    /// The writer.
    pub fn writer(&self) -> &W {
        &self.writer
    }

    /// Hits, misses, puts, removals and evictions since the cache was built.
    ///
    /// # Errors
    /// [`Error::Closed`].
    pub fn stats(&self) -> Result<Statistics, CacheError<K, V, L, W>> {
        let mut sum = Statistics::default();
        for stripe in self.stripes.iter() {
            sum = sum + stripe.statistics().map_err(|it| self.stopped(it))?;
        }
        Ok(sum)
    }

    /// The keys that are cached, stripe by stripe.
    ///
    /// # Errors
    /// [`Error::Closed`].
    pub fn keys(&self) -> Result<Vec<Arc<K>>, CacheError<K, V, L, W>> {
        self.list_keys(false)
    }

    /// The same, with those that are known to be absent, or without.
    pub(crate) fn list_keys(
        &self,
        with_absent: bool,
    ) -> Result<Vec<Arc<K>>, CacheError<K, V, L, W>> {
        let now = self.lives.now();
        let mut keys = Vec::new();
        for stripe in self.stripes.iter() {
            let listed = stripe.keys(now, with_absent);
            keys.append(&mut listed.map_err(|it| self.stopped(it))?);
        }
        Ok(keys)
    }

    /// How many keys are cached: it looks at all of them.
    ///
    /// # Errors
    /// [`Error::Closed`].
    pub fn len(&self) -> Result<usize, CacheError<K, V, L, W>> {
        let now = self.lives.now();
        let mut sum = 0;
        for stripe in self.stripes.iter() {
            sum += stripe.len(now).map_err(|it| self.stopped(it))?;
        }
        Ok(sum)
    }

    /// Whether no key is cached.
    ///
    /// # Errors
    /// [`Error::Closed`].
    pub fn is_empty(&self) -> Result<bool, CacheError<K, V, L, W>> {
        Ok(self.len()? == 0)
    }

    /// How many threads sleep in calls of this cache: they wait for a load that they have joined, for a key or for room. It is a figure
    /// for monitors, and for tests; a future that waits isn't counted.
    pub fn waiting(&self) -> usize {
        self.stripes.iter().map(Stripe::waiting).sum()
    }

    /// Closes the cache: later calls, and those that wait to begin, fail with [`Error::Closed`]. Calls under way end as they would.
    pub fn close(&self) {
        for stripe in self.stripes.iter() {
            stripe.close();
        }
    }

    /// For tests, while no call is under way: whether the core's entries and the objects beside them are the same.
    #[doc(hidden)]
    pub fn agrees(&self) -> bool {
        self.stripes.iter().all(Stripe::agrees)
    }
}

pub(crate) fn value_of<V, E>(reply: Result<Reply<V>, E>) -> Result<Option<Arc<V>>, E> {
    match reply? {
        Reply::Value(value) => Ok(value),
        _ => unreachable!("the operation answers a value"),
    }
}

pub(crate) fn flag_of<V, E>(reply: Result<Reply<V>, E>) -> Result<bool, E> {
    match reply? {
        Reply::Flag(flag) => Ok(flag),
        _ => unreachable!("the operation answers yes or no"),
    }
}
