//! Entries that expire.
use crate::cache::{Cache, CacheBegun, CacheError, flag_of, value_of};
use crate::op::{Expected, Op};
use crate::outside::{Loader, Writer};
use crate::step::Owner;
use std::hash::Hash;
use std::sync::Arc;
use std::time::Duration;

/// Says how long entries live: see [`Builder::expiry`](crate::Builder::expiry).
///
/// Each method answers how long the entry lives from now on, or None for as long as it may. It is asked with no lock held, so it may be
/// asked again, or in vain, if another call comes between; a policy that counts how it was asked counts too many. `left` is what the
/// entry has left of the time that the policy, or a call as [`Cache::put_for`], gave it; None: it has no such deadline. The cache's
/// [`time_to_live`](crate::Builder::time_to_live) and [`time_to_idle`](crate::Builder::time_to_idle) are beside it: what comes first
/// counts.
///
/// | After a call | is asked |
/// |---|---|
/// | that cached a value for a key that had none, or whose entry had expired | `after_create` |
/// | that replaced a cached value | `after_update` |
/// | `get`, `get_all`, an `invoke` that looked at the value, a conditional call that found another: if it left the entry | `after_read` |
/// | `contains_key`, a `put_if_absent` or `load_all` that found an entry, all that remove one, and a call that failed | nothing |
///
/// A call with a life of its own isn't asked for when its value comes in. If a policy panics, the panic goes on; a call whose store or
/// processor was asked has taken effect, and its new entry has no deadline.
pub trait Expiry<K, V> {
    /// How long a value lives that has come in new. None: no deadline of its own.
    fn after_create(&self, key: &K, value: &V) -> Option<Duration>;

    /// How long it lives after its value was replaced by this one: unless the policy says otherwise, as long as it had left.
    fn after_update(&self, key: &K, value: &V, left: Option<Duration>) -> Option<Duration> {
        let _ = (key, value);
        left
    }

    /// How long it lives after it was read: unless the policy says otherwise, as long as it had left.
    fn after_read(&self, key: &K, value: &V, left: Option<Duration>) -> Option<Duration> {
        let _ = (key, value);
        left
    }
}

impl<K, V, T: Expiry<K, V> + ?Sized> Expiry<K, V> for Arc<T> {
    fn after_create(&self, key: &K, value: &V) -> Option<Duration> {
        (**self).after_create(key, value)
    }

    fn after_update(&self, key: &K, value: &V, left: Option<Duration>) -> Option<Duration> {
        (**self).after_update(key, value, left)
    }

    fn after_read(&self, key: &K, value: &V, left: Option<Duration>) -> Option<Duration> {
        (**self).after_read(key, value, left)
    }
}

/// Values with a life of their own.
///
/// Such a value expires after this time, whatever the policy and the cache's time to live say; its time to idle counts as always. Any
/// cache has these calls, also one that was built without times. Errors, and what they leave, are those of the call without `_for`.
impl<K, V, L, W> Cache<K, V, L, W>
where
    K: Eq + Hash,
    L: Loader<K, V>,
    W: Writer<K, V>,
{
    /// [`put`](Cache::put) of a value that lives so long.
    ///
    /// ```
    /// use cadwrelch::Cache;
    /// use std::time::Duration;
    ///
    /// let cache = Cache::<String, u32>::builder().build()?;
    /// cache.put_for("token".to_string(), 7, Duration::from_secs(60))?;
    /// cache.put_for("gone".to_string(), 8, Duration::ZERO)?;
    /// assert_eq!(cache.get("token")?.as_deref(), Some(&7));
    /// assert_eq!(cache.get("gone")?, None);
    /// # Ok::<(), Box<dyn std::error::Error>>(())
    /// ```
    ///
    /// # Errors
    /// As [`put`](Cache::put).
    pub fn put_for(
        &self,
        key: K,
        value: impl Into<Arc<V>>,
        life: Duration,
    ) -> Result<(), CacheError<K, V, L, W>> {
        self.call_for(key, &Op::Put(value.into()), life).map(drop)
    }

    /// [`get_and_put`](Cache::get_and_put) of a value that lives so long.
    ///
    /// # Errors
    /// As [`get_and_put`](Cache::get_and_put).
    pub fn get_and_put_for(
        &self,
        key: K,
        value: impl Into<Arc<V>>,
        life: Duration,
    ) -> Result<Option<Arc<V>>, CacheError<K, V, L, W>> {
        value_of(self.call_for(key, &Op::GetAndPut(value.into()), life))
    }

    /// [`put_if_absent`](Cache::put_if_absent) of a value that lives so long.
    ///
    /// # Errors
    /// As [`put_if_absent`](Cache::put_if_absent).
    pub fn put_if_absent_for(
        &self,
        key: K,
        value: impl Into<Arc<V>>,
        life: Duration,
    ) -> Result<bool, CacheError<K, V, L, W>> {
        flag_of(self.call_for(key, &Op::PutIfAbsent(value.into()), life))
    }

    /// [`replace`](Cache::replace) by a value that lives so long.
    ///
    /// # Errors
    /// As [`replace`](Cache::replace).
    pub fn replace_for(
        &self,
        key: K,
        value: impl Into<Arc<V>>,
        life: Duration,
    ) -> Result<bool, CacheError<K, V, L, W>> {
        flag_of(self.call_for(key, &Op::Replace(value.into()), life))
    }

    /// [`replace_if`](Cache::replace_if) by a value that lives so long.
    ///
    /// # Errors
    /// As [`replace_if`](Cache::replace_if).
    pub fn replace_if_for(
        &self,
        key: K,
        old: impl Into<Arc<V>>,
        new: impl Into<Arc<V>>,
        life: Duration,
    ) -> Result<bool, CacheError<K, V, L, W>>
    where
        V: PartialEq,
    {
        let op = Op::ReplaceIf {
            old: Expected::equal_to(old),
            new: new.into(),
        };
        flag_of(self.call_for(key, &op, life))
    }

    /// [`get_and_replace`](Cache::get_and_replace) by a value that lives so long.
    ///
    /// # Errors
    /// As [`get_and_replace`](Cache::get_and_replace).
    pub fn get_and_replace_for(
        &self,
        key: K,
        value: impl Into<Arc<V>>,
        life: Duration,
    ) -> Result<Option<Arc<V>>, CacheError<K, V, L, W>> {
        value_of(self.call_for(key, &Op::GetAndReplace(value.into()), life))
    }

    /// [`begin`](Cache::begin) of an operation whose value lives so long. With one that brings no value the time counts for nothing.
    ///
    /// # Errors
    /// As [`begin`](Cache::begin).
    pub fn begin_for(
        &self,
        key: K,
        op: &Op<V>,
        life: Duration,
    ) -> Result<CacheBegun<'_, K, V, L, W>, CacheError<K, V, L, W>> {
        self.lives().turn_on();
        let hash = self.hash_of(&key);
        self.begin_at(&Arc::new(key), hash, op, Some(life), Owner::Anybody)
    }
}

impl<K, V, L, W> Cache<K, V, L, W>
where
    L: Loader<K, V>,
    W: Writer<K, V>,
{
    /// Uncaches all entries that have expired, and says how many: each as a step of its own, and a few at a time with a stripe's lock
    /// held. An entry whose key another call has reserved is left to the next call that meets it. It never waits for another call.
    ///
    /// No call finds an entry that has expired, so this is for its memory alone; and a full stripe evicts by order of use, whether or
    /// not an entry has expired. A cache that is closed has none.
    pub fn expire(&self) -> usize {
        if !self.lives().is_on() {
            return 0;
        }
        let now = self.lives().now();
        self.stripes().iter().map(|stripe| stripe.expire(now)).sum()
    }
}
