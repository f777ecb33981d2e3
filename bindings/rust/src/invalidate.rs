//! What others have changed in the store.
use crate::cache::Cache;
use crate::outside::{Loader, Writer};
use crate::stripe::Stripe;
use std::borrow::Borrow;
use std::hash::Hash;

/// The store was changed by somebody else. None of these calls waits for another one, asks anybody, or fails; a cache that is closed
/// has nothing to forget.
impl<K, V, L, W> Cache<K, V, L, W>
where
    K: Eq + Hash,
    L: Loader<K, V>,
    W: Writer<K, V>,
{
    /// Forgets a key, of which the store has another value by now. What begins after this has returned is answered nothing that was
    /// read before.
    ///
    /// The entry goes at once. If a call has reserved the key, to load, to write or to process it, no later call is answered by its
    /// entry or by its load: all of them wait until it ends, but for [`contains_key`](Cache::contains_key), which answers no. What that
    /// call leaves in the cache is dropped at its end. Who had joined its load before is answered by it. No removal is counted.
    pub fn invalidate<Q>(&self, key: &Q)
    where
        K: Borrow<Q>,
        Q: Eq + Hash + ?Sized,
    {
        let hash = self.hash_of(key);
        let stripe = self.stripe(hash);
        stripe.invalidate(hash, |held| held.borrow() == key);
    }

    /// The same of all keys, for a listener that doesn't know which ones have changed.
    pub fn invalidate_all(&self) {
        self.stripes().iter().for_each(|it| it.invalidate_all(None));
    }

    /// Forgets all keys, and keeps nothing until [`resume`](Cache::resume): each call asks the store, or joins a load that has begun
    /// since. What a call leaves in the cache is dropped as it ends.
    pub fn suspend(&self) {
        for stripe in self.stripes() {
            stripe.invalidate_all(Some(false));
        }
    }

    /// Forgets all keys once more, and keeps what is read and written from now on.
    pub fn resume(&self) {
        for stripe in self.stripes() {
            stripe.invalidate_all(Some(true));
        }
    }

    /// Whether the cache keeps nothing, since it was [suspended](Cache::suspend).
    pub fn is_suspended(&self) -> bool {
        self.stripes().iter().any(Stripe::is_suspended)
    }
}
