//! Entry processors.
use crate::cache::{Cache, CacheError};
use crate::call::{Begun, Processing};
use crate::op::Op;
use crate::outside::{Loader, Writer, in_call};
use crate::step::Owner;
use std::hash::Hash;
use std::sync::Arc;
use std::time::Duration;

/// An entry while its processor runs: no other call changes it meanwhile. What the processor does is one change, when it has
/// returned: of several the last counts.
pub struct Entry<'c, K, V, L: Loader<K, V>, W: Writer<K, V>> {
    processing: Processing<'c, K, V, L::Error, W::Error>,
    loader: &'c L,
}

impl<'c, K, V, L: Loader<K, V>, W: Writer<K, V>> Entry<'c, K, V, L, W> {
    pub(crate) fn new(processing: Processing<'c, K, V, L::Error, W::Error>, loader: &'c L) -> Self {
        Entry { processing, loader }
    }

    pub(crate) fn into_processing(self) -> Processing<'c, K, V, L::Error, W::Error> {
        self.processing
    }

    /// The entry's key.
    pub fn key(&self) -> &K {
        self.processing.key()
    }

    /// Whether there is a value. The loader isn't asked.
    pub fn exists(&self) -> bool {
        self.processing.exists()
    }

    /// The value. With read-through the loader is asked if there is none and the processor has changed nothing.
    ///
    /// # Errors
    /// [`Error::Loader`](crate::Error::Loader): it failed, and so will the call, whatever the processor does.
    /// [`Error::LoaderPanicked`](crate::Error::LoaderPanicked): the same, of one that panicked, if the processor has caught that.
    pub fn value(&mut self) -> Result<Option<Arc<V>>, CacheError<K, V, L, W>> {
        if self.processing.must_load() {
            self.processing.start_load();
            let loaded = in_call(|| self.loader.load(self.processing.key()));
            self.processing.loaded(loaded);
        }
        Ok(self.processing.value()?.cloned())
    }

    /// Sets the value. After a failed load it changes nothing.
    pub fn set(&mut self, value: impl Into<Arc<V>>) {
        self.processing.set(value);
    }

    /// Sets the value, which lives so long: see [`Cache::put_for`].
    pub fn set_for(&mut self, value: impl Into<Arc<V>>, life: Duration) {
        self.processing.set_for(value, life);
    }

    /// Removes the entry. After a failed load it changes nothing.
    pub fn remove(&mut self) {
        self.processing.remove();
    }
}

impl<K, V, L, W> Cache<K, V, L, W>
where
    K: Eq + Hash,
    L: Loader<K, V>,
    W: Writer<K, V>,
{
    /// Runs a processor on the entry of a key, and returns what it returns.
    ///
    /// It waits if another call has reserved the key, or the stripe has no room. The writer is asked after the processor, for the net
    /// effect alone.
    ///
    /// ```
    /// # let cache = cadwrelch::Cache::<String, u32>::builder().build()?;
    /// let visits = cache.invoke("page".to_string(), |entry| {
    ///     let visits = entry.value()?.map_or(0, |visits| *visits) + 1;
    ///     entry.set(visits);
    ///     Ok(visits)
    /// })?;
    /// assert_eq!(visits, 1);
    /// # Ok::<(), Box<dyn std::error::Error>>(())
    /// ```
    ///
    /// # Errors
    /// What the processor returned ([`Error::processor`](crate::Error::processor) makes an error of its own);
    /// [`Error::Loader`](crate::Error::Loader), also if the processor has made light of it; [`Error::Writer`](crate::Error::Writer);
    /// [`Error::WouldDeadlock`](crate::Error::WouldDeadlock), [`Error::Closed`](crate::Error::Closed). After any of these the entry is
    /// as it was. So it is if the processor panics, and the panic goes on.
    pub fn invoke<T>(
        &self,
        key: K,
        processor: impl FnOnce(&mut Entry<'_, K, V, L, W>) -> Result<T, CacheError<K, V, L, W>>,
    ) -> Result<T, CacheError<K, V, L, W>> {
        let mut entry = Entry::new(self.processing(key)?, self.loader());
        let result = in_call(|| processor(&mut entry));
        let mut processing = entry.into_processing();
        let value = match result {
            Ok(value) => value,
            Err(error) => return Err(processing.end_failed(error)),
        };
        if processing.change().is_some() {
            processing.start_write();
        }
        let change = processing.change();
        let written = change.map(|change| self.write(processing.key(), change));
        processing.commit(written)?;
        Ok(value)
    }

    fn processing(
        &self,
        key: K,
    ) -> Result<Processing<'_, K, V, L::Error, W::Error>, CacheError<K, V, L, W>> {
        let hash = self.hash_of(&key);
        let key = Arc::new(key);
        loop {
            match self.begin_at(&key, hash, &Op::Invoke, None, Owner::ThisThread)? {
                Begun::Process(ticket) => return Ok(ticket.ask()),
                Begun::Busy(busy) => busy.wait()?,
                _ => unreachable!("an invoke runs its processor, or is refused"),
            }
        }
    }
}
