//! Loaders that differ by call.
use crate::cache::{Cache, CacheError};
use crate::call::{AskedLoad, Begun, Busy, Join};
use crate::op::{Op, Reply};
use crate::outside::{Loader, Writer, in_call};
use crate::step::Owner;
use std::borrow::Borrow;
use std::future::Future;
use std::hash::Hash;
use std::sync::Arc;

/// How far a call with a loader of its own is.
enum Begins<'c, K, V, L, W> {
    Over(Option<Arc<V>>),
    /// It has to ask its loader.
    Ask(AskedLoad<'c, K, V, L, W>),
    Joined(Join<'c, K, V, L, W>),
    Busy(Busy<'c, K, V, L>),
    /// It begins anew, since another call has changed something.
    Again,
}

/// Calls that bring their loader, whose error is that of the cache's own.
///
/// If another call is loading the key they join it, whichever loader that asks; if it finds nothing they begin anew, and ask their own.
/// A cache that has no loader of its own says of what kind their errors are by [`ByCall`](crate::ByCall).
impl<K, V, L, W> Cache<K, V, L, W>
where
    K: Eq + Hash,
    L: Loader<K, V>,
    W: Writer<K, V>,
{
    /// The value of a key: the cached one, or what this loader finds, also with read-through off. It waits as [`get`](Cache::get) does,
    /// and the loader is called with no lock held, at most once.
    ///
    /// ```
    /// use cadwrelch::{ByCall, Cache};
    ///
    /// let cache = Cache::<u32, String>::builder()
    ///     .loader(ByCall::<std::io::Error>::new())
    ///     .build()?;
    /// let text = cache.get_or_load_with(&7, |key| Ok(Some(format!("{key}!"))))?;
    /// assert_eq!(text.unwrap().as_str(), "7!");
    /// assert!(cache.contains_key(&7)?);
    /// # Ok::<(), Box<dyn std::error::Error>>(())
    /// ```
    ///
    /// # Errors
    /// As [`get`](Cache::get).
    pub fn get_or_load_with<Q>(
        &self,
        key: &Q,
        load: impl FnOnce(&K) -> Result<Option<V>, L::Error>,
    ) -> Result<Option<Arc<V>>, CacheError<K, V, L, W>>
    where
        K: Borrow<Q>,
        Q: Eq + Hash + ToOwned<Owned = K> + ?Sized,
    {
        let hash = self.hash_of(key);
        if let Some(found) = self.hit(hash, |held| held.borrow() == key) {
            return Ok(found);
        }
        let key = Arc::new(key.to_owned());
        let mut op = Op::Get;
        loop {
            match self.begin_with(&key, hash, &mut op, Owner::ThisThread)? {
                Begins::Over(found) => return Ok(found),
                Begins::Ask(asked) => {
                    let loaded = in_call(|| load(&key));
                    return asked.commit_value(loaded);
                }
                Begins::Joined(join) => {
                    if let Some(Reply::Value(Some(value))) = join.wait()? {
                        return Ok(Some(value));
                    }
                }
                Begins::Busy(busy) => busy.wait()?,
                Begins::Again => {}
            }
        }
    }

    /// The same for async code: the value of a key, or what this future finds, which is awaited at most once. It needs no runtime. A
    /// call that is dropped while its future is pending has loaded nothing, and those that had joined it begin anew.
    ///
    /// A future must not wait for another call at the same key: it would wait for itself.
    ///
    /// # Errors
    /// As [`get`](Cache::get), but for [`Error::WouldDeadlock`](crate::Error::WouldDeadlock).
    pub async fn get_with(
        &self,
        key: K,
        future: impl Future<Output = Result<Option<V>, L::Error>>,
    ) -> Result<Option<Arc<V>>, CacheError<K, V, L, W>> {
        let hash = self.hash_of(&key);
        if let Some(found) = self.hit(hash, |held| *held == key) {
            return Ok(found);
        }
        let key = Arc::new(key);
        let mut op = Op::Get;
        loop {
            match self.begin_with(&key, hash, &mut op, Owner::Anybody)? {
                Begins::Over(found) => return Ok(found),
                Begins::Ask(asked) => {
                    let loaded = future.await;
                    return asked.commit_value(loaded);
                }
                Begins::Joined(join) => {
                    if let Some(Reply::Value(Some(value))) = join.await? {
                        return Ok(Some(value));
                    }
                }
                Begins::Busy(busy) => busy.await,
                Begins::Again => {}
            }
        }
    }

    /// The first phase. With read-through off a `get` counts the miss, and then the key is loaded.
    fn begin_with(
        &self,
        key: &Arc<K>,
        hash: u64,
        op: &mut Op<V>,
        owner: Owner,
    ) -> Result<Begins<'_, K, V, L::Error, W::Error>, CacheError<K, V, L, W>> {
        Ok(match self.begin_at(key, hash, op, None, owner)? {
            Begun::Done(Reply::Value(None)) if !self.reads_through() => {
                *op = Op::Load;
                Begins::Again
            }
            Begun::Done(Reply::Value(found)) => Begins::Over(found),
            // The load found the key cached.
            Begun::Done(_) => {
                *op = Op::Get;
                Begins::Again
            }
            Begun::Load(ticket) => Begins::Ask(ticket.ask()),
            Begun::Joined(join) => Begins::Joined(join),
            Begun::Busy(busy) => Begins::Busy(busy),
            Begun::Write(_) | Begun::Process(_) => unreachable!("a load asks the loader alone"),
        })
    }
}
