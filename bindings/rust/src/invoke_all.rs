//! Entry processors of many keys, in rounds.
//!
//! A round reserves each key that it can, runs the processor on them in the order of the caller, and asks the writer once for what they
//! have set, and once for what they have removed. A key that is busy is put off to the next round. A round waits for a busy key only if
//! it has reserved none.
use crate::bulk::end_all;
use crate::cache::{Cache, CacheError};
use crate::call::{Begun, Busy, Change, Processing, Ticket};
use crate::invoke::Entry;
use crate::op::Op;
use crate::outside::{Loader, Unwritten, Writer, in_call};
use crate::step::Owner;
use std::hash::Hash;
use std::sync::Arc;

/// What a processor returned at one of many keys, or why it failed there. Keys that failed for one reason share its error.
pub type Invoked<T, E> = Result<T, Arc<E>>;

/// A key of the call, and its place there.
struct Item<K> {
    at: usize,
    key: Arc<K>,
    hash: u64,
}

type Tickets<'c, K, V, L, W> = Vec<(Item<K>, Ticket<Processing<'c, K, V, L, W>>)>;

/// A call whose processor has returned.
struct Processed<'c, K, V, L, W, T> {
    at: usize,
    processing: Processing<'c, K, V, L, W>,
    value: T,
}

/// What the writer is to do, and of which keys of the call.
struct Changes<'p, K, V> {
    entries: Vec<(&'p K, &'p V)>,
    written: Vec<usize>,
    keys: Vec<&'p K>,
    deleted: Vec<usize>,
}

fn changes_of<'p, K, V, L, W, T>(
    processed: &'p [Processed<'_, K, V, L, W, T>],
) -> Changes<'p, K, V> {
    let mut changes = Changes {
        entries: Vec::new(),
        written: Vec::new(),
        keys: Vec::new(),
        deleted: Vec::new(),
    };
    for call in processed {
        match call.processing.change() {
            Some(Change::Write(value)) => {
                changes.entries.push((call.processing.key(), value));
                changes.written.push(call.at);
            }
            Some(Change::Delete) => {
                changes.keys.push(call.processing.key());
                changes.deleted.push(call.at);
            }
            None => {}
        }
    }
    changes
}

/// What is known of each key.
type Replies<T, E> = Vec<Option<Invoked<T, E>>>;

impl<K, V, L, W> Cache<K, V, L, W>
where
    K: Eq + Hash,
    L: Loader<K, V>,
    W: Writer<K, V>,
{
    /// Runs a processor on the entry of each of these keys, as [`invoke`](Cache::invoke) does, and returns what it returned, in the order
    /// of the keys. Each key is a step of its own; the loader is asked key by key, and the writer once for all.
    ///
    /// # Errors
    /// Those of [`invoke`](Cache::invoke), of each key by itself. [`Error::Closed`](crate::Error::Closed) and
    /// [`Error::WouldDeadlock`](crate::Error::WouldDeadlock) are those of all keys that it hasn't reached. If the processor panics, the
    /// panic goes on, and the entries of its round are as they were.
    #[allow(clippy::missing_panics_doc)] // each key has a reply
    pub fn invoke_all<T>(
        &self,
        keys: impl IntoIterator<Item = K>,
        mut processor: impl FnMut(&mut Entry<'_, K, V, L, W>) -> Result<T, CacheError<K, V, L, W>>,
    ) -> Vec<(Arc<K>, Invoked<T, CacheError<K, V, L, W>>)> {
        let keys: Vec<Arc<K>> = keys.into_iter().map(Arc::new).collect();
        let mut items: Vec<Item<K>> = keys
            .iter()
            .enumerate()
            .map(|(at, key)| Item {
                at,
                key: key.clone(),
                hash: self.hash_of(&**key),
            })
            .collect();
        let mut replies: Replies<T, _> = keys.iter().map(|_| None).collect();
        while !items.is_empty() {
            let round = in_call(|| self.invoke_round(&mut items, &mut processor, &mut replies));
            let waited = round.and_then(|busy| busy.map_or(Ok(()), Busy::wait));
            if let Err(error) = waited {
                let error = Arc::new(error);
                for item in items.drain(..) {
                    replies[item.at] = Some(Err(error.clone()));
                }
            }
        }
        let replies = replies.into_iter().map(|it| it.expect("it has a reply"));
        keys.into_iter().zip(replies).collect()
    }

    /// One round, of the items that are left. If it could reserve none: what it waits for.
    fn invoke_round<T>(
        &self,
        items: &mut Vec<Item<K>>,
        processor: &mut impl FnMut(&mut Entry<'_, K, V, L, W>) -> Result<T, CacheError<K, V, L, W>>,
        replies: &mut Replies<T, CacheError<K, V, L, W>>,
    ) -> Result<Option<Busy<'_, K, V, L::Error>>, CacheError<K, V, L, W>> {
        let mut tickets = Vec::new();
        let busy = self.reserve_all(items, &mut tickets)?;
        if tickets.is_empty() {
            return Ok(busy);
        }
        let mut processed = Vec::new();
        for (item, ticket) in tickets {
            let mut entry = Entry::new(ticket.ask(), self.loader());
            match processor(&mut entry) {
                Ok(value) => processed.push(Processed {
                    at: item.at,
                    processing: entry.into_processing(),
                    value,
                }),
                Err(error) => {
                    let error = entry.into_processing().end_failed(error);
                    replies[item.at] = Some(Err(Arc::new(error)));
                }
            }
        }
        self.end_processed(processed, replies);
        Ok(None)
    }

    /// Reserves the keys that are free; the others are left. If it is stopped, all are.
    fn reserve_all<'c>(
        &'c self,
        items: &mut Vec<Item<K>>,
        tickets: &mut Tickets<'c, K, V, L::Error, W::Error>,
    ) -> Result<Option<Busy<'c, K, V, L::Error>>, CacheError<K, V, L, W>> {
        let mut busy = None;
        let mut left = Vec::new();
        let mut rest = std::mem::take(items).into_iter();
        while let Some(item) = rest.next() {
            match self.begin_at(&item.key, item.hash, &Op::Invoke, None, Owner::ThisThread) {
                Ok(Begun::Process(ticket)) => tickets.push((item, ticket)),
                Ok(Begun::Busy(it)) => {
                    busy.get_or_insert(it);
                    left.push(item);
                }
                Ok(_) => unreachable!("an invoke runs its processor, or is refused"),
                Err(error) => {
                    left.extend(tickets.drain(..).map(|(item, _)| item));
                    left.push(item);
                    left.extend(rest);
                    *items = left;
                    return Err(error);
                }
            }
        }
        *items = left;
        Ok(busy)
    }

    /// Asks the writer for what has changed, and ends the calls.
    fn end_processed<T>(
        &self,
        mut processed: Vec<Processed<'_, K, V, L::Error, W::Error, T>>,
        replies: &mut Replies<T, CacheError<K, V, L, W>>,
    ) {
        let mut failures = self.write_processed(&mut processed);
        end_all(processed.into_iter(), |call| {
            let (at, value) = (call.at, call.value);
            let is_asked = call.processing.change().is_some();
            let failed = failures.iter_mut().find(|(failed, _)| *failed == at);
            let ended = call.processing.end(is_asked.then_some(failed.is_none()));
            replies[at] = Some(match (ended, failed) {
                (Ok(()), _) => Ok(value),
                (Err(Some(error)), _) => Err(Arc::new(error)),
                (Err(None), Some((_, error))) => Err(error.clone()),
                (Err(None), None) => unreachable!("the writer failed"),
            });
        });
    }

    /// Which keys the writer has failed at, and why.
    #[allow(clippy::type_complexity)]
    fn write_processed<T>(
        &self,
        processed: &mut [Processed<'_, K, V, L::Error, W::Error, T>],
    ) -> Vec<(usize, Arc<CacheError<K, V, L, W>>)> {
        for call in processed.iter_mut() {
            if call.processing.change().is_some() {
                call.processing.start_write();
            }
        }
        let changes = changes_of(processed);
        let mut failures = Vec::new();
        let mut note = |asked: Result<(), Unwritten<W::Error>>, places: &[usize]| {
            if let Err(unwritten) = asked {
                let error = Arc::new(crate::Error::Writer(unwritten.error, self.at()));
                let failed = unwritten
                    .places
                    .iter()
                    .filter_map(|place| places.get(*place));
                failures.extend(failed.map(|at| (*at, error.clone())));
            }
        };
        if !changes.entries.is_empty() {
            note(self.writer().write_all(&changes.entries), &changes.written);
        }
        if !changes.keys.is_empty() {
            note(self.writer().delete_all(&changes.keys), &changes.deleted);
        }
        failures
    }
}
