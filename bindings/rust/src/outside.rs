//! The loader and the writer: what a cache has behind it.
use std::cell::Cell;
use std::convert::Infallible;
use std::fmt;
use std::marker::PhantomData;
use std::sync::Arc;

/// Reads the store.
///
/// A function or closure `Fn(&K) -> Result<Option<V>, E>` is a loader, too. A loader is called with no lock held, for each key by one
/// call at a time. If it panics its call has failed, and the panic goes on.
///
/// What it returns as None is not cached: the next `get` asks it again.
///
/// ```
/// use cadwrelch::{Cache, Loader, Writer};
/// use std::collections::HashMap;
/// use std::convert::Infallible;
/// use std::sync::{Arc, Mutex};
///
/// #[derive(Default)]
/// struct Store(Mutex<HashMap<u32, String>>);
///
/// impl Loader<u32, String> for Store {
///     type Error = Infallible;
///
///     fn load(&self, key: &u32) -> Result<Option<String>, Infallible> {
///         Ok(self.0.lock().unwrap().get(key).cloned())
///     }
/// }
///
/// impl Writer<u32, String> for Store {
///     type Error = Infallible;
///
///     fn write(&self, key: &u32, value: &String) -> Result<(), Infallible> {
///         self.0.lock().unwrap().insert(*key, value.clone());
///         Ok(())
///     }
///
///     fn delete(&self, key: &u32) -> Result<(), Infallible> {
///         self.0.lock().unwrap().remove(key);
///         Ok(())
///     }
/// }
///
/// let store = Arc::new(Store::default());
/// let cache = Cache::builder().store(store.clone()).build()?;
/// cache.put(1, "one".to_string())?;
/// assert_eq!(store.0.lock().unwrap()[&1], "one");
/// # Ok::<(), Box<dyn std::error::Error>>(())
/// ```
pub trait Loader<K: ?Sized, V> {
    /// Its error.
    type Error;

    /// The store's value of the key, if it has one.
    ///
    /// # Errors
    /// Its own: the call fails with [`Error::Loader`](crate::Error::Loader), and so do those that have joined it.
    fn load(&self, key: &K) -> Result<Option<V>, Self::Error>;

    /// What the store has of each of these keys, in their order, or why that key has failed. If the answer is shorter, the other keys
    /// have no value. Without a method of its own it asks for one key after the other, also after a failure.
    ///
    /// # Errors
    /// Its own: each of these keys has failed.
    fn load_all(&self, keys: &[&K]) -> Result<Vec<Found<V, Self::Error>>, Self::Error> {
        Ok(keys.iter().map(|key| self.load(key)).collect())
    }
}

/// What a loader answers of one of many keys: its value, if it has one, or why it has failed.
pub type Found<V, E> = Result<Option<V>, E>;

impl<F, K: ?Sized, V, E> Loader<K, V> for F
where
    F: Fn(&K) -> Result<Option<V>, E>,
{
    type Error = E;

    fn load(&self, key: &K) -> Result<Option<V>, E> {
        self(key)
    }
}

/// Changes the store.
///
/// A writer is called with no lock held, for each key by one call at a time. What it reports is believed: a writer that has written
/// and reports a failure leaves the old value in the cache.
pub trait Writer<K: ?Sized, V: ?Sized> {
    /// Its error.
    type Error;

    /// Writes the value at the key.
    ///
    /// # Errors
    /// Its own: the call fails with [`Error::Writer`](crate::Error::Writer), and its entry stays.
    fn write(&self, key: &K, value: &V) -> Result<(), Self::Error>;

    /// Deletes the key, which may have no value.
    ///
    /// # Errors
    /// Its own: the call fails with [`Error::Writer`](crate::Error::Writer), and its entry stays.
    fn delete(&self, key: &K) -> Result<(), Self::Error>;

    /// Writes many entries. Without a method of its own it writes one after the other, up to the first failure.
    ///
    /// # Errors
    /// Its own, with the entries that it did not write.
    fn write_all(&self, entries: &[(&K, &V)]) -> Result<(), Unwritten<Self::Error>> {
        one_by_one(entries, |(key, value)| self.write(key, value))
    }

    /// Deletes many keys. Without a method of its own it deletes one after the other, up to the first failure.
    ///
    /// # Errors
    /// Its own, with the keys that it did not delete.
    fn delete_all(&self, keys: &[&K]) -> Result<(), Unwritten<Self::Error>> {
        one_by_one(keys, |key| self.delete(key))
    }
}

/// Why a writer of many keys failed, and where.
#[derive(Debug)]
pub struct Unwritten<E> {
    /// Its error.
    pub error: E,
    /// The places, in the slice that it was given, of what it did not write or delete.
    pub places: Vec<usize>,
}

/// Stops at the first failure: the entries after it aren't tried.
fn one_by_one<T, E>(
    entries: &[T],
    mut change: impl FnMut(&T) -> Result<(), E>,
) -> Result<(), Unwritten<E>> {
    for (place, entry) in entries.iter().enumerate() {
        if let Err(error) = change(entry) {
            return Err(Unwritten {
                error,
                places: (place..entries.len()).collect(),
            });
        }
    }
    Ok(())
}

/// There is no loader: a missing key has no value.
#[derive(Clone, Copy, Debug, Default)]
pub struct NoLoader;

impl<K: ?Sized, V> Loader<K, V> for NoLoader {
    type Error = Infallible;

    fn load(&self, _key: &K) -> Result<Option<V>, Infallible> {
        Ok(None)
    }
}

/// There is no loader of the cache's own: calls bring theirs, as [`get_or_load_with`](crate::Cache::get_or_load_with), or ask in
/// [phases](crate::call). It finds nothing, and says of what kind their errors are.
pub struct ByCall<E>(PhantomData<fn() -> E>);

impl<E> ByCall<E> {
    /// One whose calls have errors of this kind.
    pub fn new() -> ByCall<E> {
        ByCall(PhantomData)
    }
}

impl<E> Default for ByCall<E> {
    fn default() -> Self {
        ByCall::new()
    }
}

impl<E> Clone for ByCall<E> {
    fn clone(&self) -> Self {
        *self
    }
}

impl<E> Copy for ByCall<E> {}

impl<E> fmt::Debug for ByCall<E> {
    fn fmt(&self, f: &mut fmt::Formatter<'_>) -> fmt::Result {
        f.write_str("ByCall")
    }
}

impl<K: ?Sized, V, E> Loader<K, V> for ByCall<E> {
    type Error = E;

    fn load(&self, _key: &K) -> Result<Option<V>, E> {
        Ok(None)
    }
}

/// There is no writer: the cache is all that is changed.
#[derive(Clone, Copy, Debug, Default)]
pub struct NoWriter;

impl<K: ?Sized, V: ?Sized> Writer<K, V> for NoWriter {
    type Error = Infallible;

    fn write(&self, _key: &K, _value: &V) -> Result<(), Infallible> {
        Ok(())
    }

    fn delete(&self, _key: &K) -> Result<(), Infallible> {
        Ok(())
    }
}

/// A store that is shared, as the loader and the writer of a cache: see [`Builder::store`](crate::Builder::store).
#[derive(Debug, Default)]
pub struct Shared<T: ?Sized>(pub Arc<T>);

impl<T: ?Sized> Clone for Shared<T> {
    fn clone(&self) -> Shared<T> {
        Shared(self.0.clone())
    }
}

impl<K: ?Sized, V, T: Loader<K, V> + ?Sized> Loader<K, V> for Shared<T> {
    type Error = T::Error;

    fn load(&self, key: &K) -> Result<Option<V>, T::Error> {
        self.0.load(key)
    }

    fn load_all(&self, keys: &[&K]) -> Result<Vec<Found<V, T::Error>>, T::Error> {
        self.0.load_all(keys)
    }
}

impl<K: ?Sized, V: ?Sized, T: Writer<K, V> + ?Sized> Writer<K, V> for Shared<T> {
    type Error = T::Error;

    fn write(&self, key: &K, value: &V) -> Result<(), T::Error> {
        self.0.write(key, value)
    }

    fn delete(&self, key: &K) -> Result<(), T::Error> {
        self.0.delete(key)
    }

    fn write_all(&self, entries: &[(&K, &V)]) -> Result<(), Unwritten<T::Error>> {
        self.0.write_all(entries)
    }

    fn delete_all(&self, keys: &[&K]) -> Result<(), Unwritten<T::Error>> {
        self.0.delete_all(keys)
    }
}

thread_local! {
    static DEPTH: Cell<u32> = const { Cell::new(0) };
}

struct Leave;

impl Drop for Leave {
    fn drop(&mut self) {
        DEPTH.with(|depth| depth.set(depth.get() - 1));
    }
}

/// Does what a call does while it has something out, as to ask a loader: who calls a cache meanwhile may not wait for room.
pub(crate) fn in_call<T>(work: impl FnOnce() -> T) -> T {
    DEPTH.with(|depth| depth.set(depth.get() + 1));
    let _leave = Leave;
    work()
}

/// Whether this thread has a call that has something out.
pub(crate) fn is_in_call() -> bool {
    DEPTH.with(|depth| depth.get() > 0)
}
