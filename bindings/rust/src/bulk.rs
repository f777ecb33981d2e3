//! Calls of many keys, in rounds.
//!
//! A round makes the first phase of each key that has no reply. Then the loader or the writer is asked once, for all keys that the
//! round has reserved, and these are committed; then the round waits for the loads that it has joined. A key that is busy is put off
//! to the next round. A round waits for a busy key only if it has reserved and joined nothing.
use crate::cache::{Cache, CacheError};
use crate::call::{AskedLoad, AskedWrite, Begun, Busy, Change, Join, Ticket};
use crate::error::{BulkError, Error};
use crate::op::{Op, Reply};
use crate::outside::{Loader, Unwritten, Writer, in_call};
use crate::step::Owner;
use std::collections::HashMap;
use std::hash::Hash;
use std::panic::{AssertUnwindSafe, catch_unwind, resume_unwind};
use std::sync::Arc;

/// The error of a cache's calls of many keys.
type Bulk<K, V, L, W> =
    BulkError<Arc<K>, V, <L as Loader<K, V>>::Error, <W as Writer<K, V>>::Error>;

struct Item<K, V> {
    key: Arc<K>,
    hash: u64,
    op: Op<V>,
}

type Loads<'c, K, V, L, W> = Vec<(Item<K, V>, Ticket<AskedLoad<'c, K, V, L, W>>)>;
type Writes<'c, K, V, L, W> = Vec<(Item<K, V>, Ticket<AskedWrite<'c, K, V, L, W>>)>;
type Joins<'c, K, V, L, W> = Vec<(Item<K, V>, Join<'c, K, V, L, W>)>;

/// What a round has out.
struct Round<'c, K, V, L, W> {
    loads: Loads<'c, K, V, L, W>,
    writes: Writes<'c, K, V, L, W>,
    joins: Joins<'c, K, V, L, W>,
    /// What is put off.
    later: Vec<Item<K, V>>,
    busy: Option<Busy<'c, K, V, L>>,
}

impl<K, V, L, W> Default for Round<'_, K, V, L, W> {
    fn default() -> Self {
        Round {
            loads: Vec::new(),
            writes: Vec::new(),
            joins: Vec::new(),
            later: Vec::new(),
            busy: None,
        }
    }
}

impl<K, V, L, W> Round<'_, K, V, L, W> {
    fn has_nothing_out(&self) -> bool {
        self.loads.is_empty() && self.writes.is_empty() && self.joins.is_empty()
    }
}

/// The replies and the failures of a call.
struct Progress<K, V, L, W> {
    replies: Vec<(Arc<K>, Reply<V>)>,
    error: Option<Error<L, W>>,
    failed: Vec<Arc<K>>,
}

impl<K, V, L, W> Progress<K, V, L, W> {
    fn note(&mut self, key: Arc<K>, result: Result<Reply<V>, Error<L, W>>) {
        match result {
            Ok(reply) => self.replies.push((key, reply)),
            Err(error) => {
                self.failed.push(key);
                self.error.get_or_insert(error);
            }
        }
    }

    /// The call has ended, or was stopped by this error and hasn't reached what is left.
    fn stop(mut self, error: Error<L, W>, left: Vec<Item<K, V>>) -> BulkError<Arc<K>, V, L, W> {
        self.failed.extend(left.into_iter().map(|item| item.key));
        BulkError {
            error: self.error.unwrap_or(error),
            failed: self.failed,
            found: found(self.replies).collect(),
        }
    }
}

/// The values among replies.
fn found<K, V>(replies: Vec<(Arc<K>, Reply<V>)>) -> impl Iterator<Item = (Arc<K>, Arc<V>)> {
    replies.into_iter().filter_map(|(key, reply)| match reply {
        Reply::Value(Some(value)) => Some((key, value)),
        _ => None,
    })
}

/// Ends calls one after the other: also if a policy or a listener panics at one of them, and then the panic goes on after the last.
pub(crate) fn end_all<T>(calls: impl Iterator<Item = T>, mut end: impl FnMut(T)) {
    let mut panic = None;
    for call in calls {
        if let Err(payload) = catch_unwind(AssertUnwindSafe(|| end(call))) {
            panic.get_or_insert(payload);
        }
    }
    if let Some(payload) = panic {
        resume_unwind(payload);
    }
}

/// Calls of many keys: each key is a step of its own, and the call as a whole isn't atomic. The store is asked once for all keys that
/// are free; those that another call has reserved are tried again afterwards.
impl<K, V, L, W> Cache<K, V, L, W>
where
    K: Eq + Hash,
    L: Loader<K, V>,
    W: Writer<K, V>,
{
    /// The values of these keys, of those that have one. [`Loader::load_all`] is asked for all that are missing.
    ///
    /// # Errors
    /// The first failure, with the keys that failed, and what was found at the others, which is cached, too. [`Error::Closed`] and
    /// [`Error::WouldDeadlock`] stop it.
    pub fn get_all(
        &self,
        keys: impl IntoIterator<Item = K>,
    ) -> Result<HashMap<K, Arc<V>>, Bulk<K, V, L, W>>
    where
        K: Clone,
    {
        let replies = self.rounds(self.items(keys, || Op::Get))?;
        let found = found(replies).map(|(key, value)| (Arc::unwrap_or_clone(key), value));
        Ok(found.collect())
    }

    /// Writes and caches these values. [`Writer::write_all`] is asked.
    ///
    /// # Errors
    /// The first failure, with the keys that failed: at all others the call took effect. [`Error::Closed`] and [`Error::WouldDeadlock`]
    /// stop it.
    pub fn put_all<T: Into<Arc<V>>>(
        &self,
        entries: impl IntoIterator<Item = (K, T)>,
    ) -> Result<(), Bulk<K, V, L, W>> {
        let items = entries
            .into_iter()
            .map(|(key, value)| self.item(Arc::new(key), Op::Put(value.into())));
        self.rounds(items.collect()).map(drop)
    }

    /// Deletes these keys from store and cache. [`Writer::delete_all`] is asked.
    ///
    /// # Errors
    /// The first failure, with the keys that failed: at all others the call took effect. [`Error::Closed`] and [`Error::WouldDeadlock`]
    /// stop it.
    pub fn remove_all(&self, keys: impl IntoIterator<Item = K>) -> Result<(), Bulk<K, V, L, W>> {
        self.rounds(self.items(keys, || Op::Remove)).map(drop)
    }

    /// Deletes all keys that are cached when it begins from store and cache; what only the store has stays. [`Writer::delete_all`] is
    /// asked.
    ///
    /// # Errors
    /// As [`remove_all`](Cache::remove_all).
    pub fn remove_every(&self) -> Result<(), Bulk<K, V, L, W>> {
        let keys = self.keys().map_err(|error| BulkError {
            error,
            failed: Vec::new(),
            found: Vec::new(),
        })?;
        let items = keys.into_iter().map(|key| self.item(key, Op::Remove));
        self.rounds(items.collect()).map(drop)
    }

    /// Loads these keys: those that aren't cached, or all. [`Loader::load_all`] is asked, also without read-through.
    ///
    /// # Errors
    /// The first failure, with the keys that failed: at all others the call took effect. [`Error::Closed`] and [`Error::WouldDeadlock`]
    /// stop it.
    pub fn load_all(
        &self,
        keys: impl IntoIterator<Item = K>,
        replace: bool,
    ) -> Result<(), Bulk<K, V, L, W>> {
        let op = || if replace { Op::Reload } else { Op::Load };
        self.rounds(self.items(keys, op)).map(drop)
    }

    /// Uncaches all keys that are cached now. The store keeps them, and the writer isn't asked. It waits for keys that others have
    /// reserved.
    ///
    /// # Errors
    /// [`Error::Closed`], [`Error::WouldDeadlock`]: keys that it hasn't reached are as they were.
    pub fn clear(&self) -> Result<(), CacheError<K, V, L, W>> {
        self.expire();
        let items = self
            .list_keys(true)?
            .into_iter()
            .map(|key| self.item(key, Op::Clear));
        match self.rounds(items.collect()) {
            Ok(_) => Ok(()),
            Err(stopped) => Err(stopped.error),
        }
    }

    fn items(&self, keys: impl IntoIterator<Item = K>, op: impl Fn() -> Op<V>) -> Vec<Item<K, V>> {
        let keys = keys.into_iter();
        keys.map(|key| self.item(Arc::new(key), op())).collect()
    }

    fn item(&self, key: Arc<K>, op: Op<V>) -> Item<K, V> {
        let hash = self.hash_of(&key);
        Item { key, hash, op }
    }

    fn rounds(
        &self,
        mut items: Vec<Item<K, V>>,
    ) -> Result<Vec<(Arc<K>, Reply<V>)>, Bulk<K, V, L, W>> {
        let mut progress = Progress {
            replies: Vec::with_capacity(items.len()),
            error: None,
            failed: Vec::new(),
        };
        while !items.is_empty() {
            let busy = match in_call(|| self.round(&mut items, &mut progress)) {
                Ok(busy) => busy,
                Err(error) => return Err(progress.stop(error, items)),
            };
            if let Some(Err(error)) = busy.map(Busy::wait) {
                return Err(progress.stop(error, items));
            }
        }
        match progress.error.take() {
            None => Ok(progress.replies),
            Some(error) => Err(progress.stop(error, Vec::new())),
        }
    }

    /// One round, of the items that are left. If it could reserve and join nothing: what it waits for.
    fn round(
        &self,
        items: &mut Vec<Item<K, V>>,
        progress: &mut Progress<K, V, L::Error, W::Error>,
    ) -> Result<Option<Busy<'_, K, V, L::Error>>, CacheError<K, V, L, W>> {
        let mut round = Round::default();
        if let Err((error, left)) = self.begin_round(std::mem::take(items), &mut round, progress) {
            *items = left;
            return Err(error);
        }
        if round.has_nothing_out() {
            *items = round.later;
            return Ok(round.busy);
        }
        self.ask_loader(round.loads, progress);
        self.ask_writer(round.writes, progress);
        self.pick_up(round.joins, &mut round.later, progress);
        *items = round.later;
        Ok(None)
    }

    /// The first phases. If one is stopped, the round is given up: its keys are withdrawn.
    fn begin_round<'c>(
        &'c self,
        items: Vec<Item<K, V>>,
        round: &mut Round<'c, K, V, L::Error, W::Error>,
        progress: &mut Progress<K, V, L::Error, W::Error>,
    ) -> Result<(), (CacheError<K, V, L, W>, Vec<Item<K, V>>)> {
        let mut items = items.into_iter();
        while let Some(item) = items.next() {
            match self.begin_at(&item.key, item.hash, &item.op, None, Owner::ThisThread) {
                Ok(Begun::Done(reply)) => progress.replies.push((item.key, reply)),
                Ok(Begun::Load(ticket)) => round.loads.push((item, ticket)),
                Ok(Begun::Write(ticket)) => round.writes.push((item, ticket)),
                Ok(Begun::Joined(join)) => round.joins.push((item, join)),
                Ok(Begun::Busy(busy)) => {
                    round.busy.get_or_insert(busy);
                    round.later.push(item);
                }
                Ok(Begun::Process(_)) => unreachable!("no processor was begun"),
                Err(error) => {
                    let given_up = std::mem::take(round);
                    let mut left: Vec<_> = given_up.later;
                    left.extend(given_up.loads.into_iter().map(|(item, _)| item));
                    left.extend(given_up.writes.into_iter().map(|(item, _)| item));
                    left.extend(given_up.joins.into_iter().map(|(item, _)| item));
                    left.push(item);
                    left.extend(items);
                    return Err((error, left));
                }
            }
        }
        Ok(())
    }

    fn ask_loader(
        &self,
        loads: Loads<'_, K, V, L::Error, W::Error>,
        progress: &mut Progress<K, V, L::Error, W::Error>,
    ) {
        if loads.is_empty() {
            return;
        }
        let (keys, asked): (Vec<_>, Vec<_>) = loads
            .into_iter()
            .map(|(item, ticket)| (item.key, ticket.ask()))
            .unzip();
        let borrowed: Vec<&K> = keys.iter().map(|key| &**key).collect();
        match in_call(|| self.loader().load_all(&borrowed)) {
            Ok(found) => {
                let found = found.into_iter().chain(std::iter::repeat_with(|| Ok(None)));
                let calls = keys.into_iter().zip(asked).zip(found);
                end_all(calls, |((key, asked), found)| {
                    progress.note(key, asked.commit(found));
                });
            }
            Err(error) => {
                let error = Arc::new(error);
                for (key, asked) in keys.into_iter().zip(asked) {
                    progress.note(key, asked.commit_failed(error.clone()));
                }
            }
        }
    }

    fn ask_writer(
        &self,
        writes: Writes<'_, K, V, L::Error, W::Error>,
        progress: &mut Progress<K, V, L::Error, W::Error>,
    ) {
        if writes.is_empty() {
            return;
        }
        let (keys, asked): (Vec<_>, Vec<_>) = writes
            .into_iter()
            .map(|(item, ticket)| (item.key, ticket.ask()))
            .unzip();
        let mut is_written = vec![true; asked.len()];
        if let Err(Unwritten { error, places }) = self.change_all(&asked) {
            for place in places {
                if let Some(is_written) = is_written.get_mut(place) {
                    *is_written = false;
                }
            }
            progress
                .error
                .get_or_insert(Error::Writer(error, self.at()));
        }
        let calls = keys.into_iter().zip(asked).zip(is_written);
        end_all(calls, |((key, mut asked), is_written)| {
            match asked.end(is_written) {
                Some(reply) => progress.replies.push((key, reply)),
                None => progress.failed.push(key),
            }
        });
    }

    /// All of a call's keys are to be written, or all to be deleted.
    fn change_all(
        &self,
        asked: &[AskedWrite<'_, K, V, L::Error, W::Error>],
    ) -> Result<(), Unwritten<W::Error>> {
        let mut entries = Vec::new();
        let mut keys = Vec::new();
        for asked in asked {
            match asked.change() {
                Change::Write(value) => entries.push((asked.key(), value)),
                Change::Delete => keys.push(asked.key()),
            }
        }
        in_call(|| {
            if keys.is_empty() {
                self.writer().write_all(&entries)
            } else {
                self.writer().delete_all(&keys)
            }
        })
    }

    fn pick_up(
        &self,
        joins: Joins<'_, K, V, L::Error, W::Error>,
        later: &mut Vec<Item<K, V>>,
        progress: &mut Progress<K, V, L::Error, W::Error>,
    ) {
        for (item, join) in joins {
            match join.wait() {
                Ok(Some(reply)) => progress.replies.push((item.key, reply)),
                Ok(None) => later.push(item),
                Err(error) => progress.note(item.key, Err(error)),
            }
        }
    }
}
