//! What the numbers of the core stand for: the keys and the values beside one desk.
//!
//! The core knows a key by eight bytes, its slot and how often the slot was given, and a value by eight bytes, its version. Neither is
//! given twice. A key has a slot while it is cached, reserved or joined. Which value comes and goes is what the core's moves say, and
//! nothing else. What is dropped is dropped by the caller, with no lock held.
use crate::at::At;
use crate::core::{Join, Moves, Reply as Told};
use crate::error::Error;
use crate::lives::{Life, Nanos, Renewal};
use crate::waiting::Waiters;
use std::collections::HashMap;
use std::hash::{BuildHasherDefault, Hasher};
use std::sync::atomic::AtomicBool;
use std::sync::{Arc, OnceLock};
use std::task::Waker;

/// The version that no value has.
pub(crate) const NO_VERSION: u64 = 0;

const SLOT_BITS: u32 = 16;
const LAST_GENERATION: u64 = u64::MAX >> SLOT_BITS;
const NO_SLOT: u32 = u32::MAX;

/// A slot with its generation: a key's number. It is never given again.
#[derive(Clone, Copy, Debug, PartialEq, Eq)]
pub(crate) struct Id(u64);

impl Id {
    fn new(slot: u32, generation: u64) -> Id {
        Id(u64::from(slot) | generation << SLOT_BITS)
    }

    fn of(bytes: &[u8]) -> Id {
        Id(number_of(bytes))
    }

    pub(crate) fn slot(self) -> usize {
        (self.0 & ((1 << SLOT_BITS) - 1)) as usize
    }

    fn generation(self) -> u64 {
        self.0 >> SLOT_BITS
    }

    pub(crate) fn bytes(self) -> [u8; 8] {
        self.0.to_le_bytes()
    }
}

fn number_of(bytes: &[u8]) -> u64 {
    u64::from_le_bytes(bytes.try_into().expect("the core has only eight bytes"))
}

/// A value with its version; or none, with one: its key is known to be absent.
pub(crate) struct Versioned<V> {
    pub version: u64,
    pub value: Option<Arc<V>>,
}

impl<V> Clone for Versioned<V> {
    fn clone(&self) -> Versioned<V> {
        Versioned {
            version: self.version,
            value: self.value.clone(),
        }
    }
}

impl<V> Versioned<V> {
    pub(crate) fn bytes(&self) -> [u8; 8] {
        self.version.to_le_bytes()
    }
}

/// Why a load failed.
pub(crate) enum Failure<E> {
    Error(Arc<E>),
    Panicked,
    /// The call was dropped after it had asked: nobody knows what the loader answered. Those who have joined it begin anew.
    Cancelled,
    /// The value is too long for the core.
    Limits,
}

impl<E> Clone for Failure<E> {
    fn clone(&self) -> Failure<E> {
        match self {
            Failure::Error(error) => Failure::Error(error.clone()),
            Failure::Panicked => Failure::Panicked,
            Failure::Cancelled => Failure::Cancelled,
            Failure::Limits => Failure::Limits,
        }
    }
}

impl<E> Failure<E> {
    /// The error of a call whose load has failed so.
    pub(crate) fn at<W>(self, at: At) -> Error<E, W> {
        match self {
            Failure::Error(error) => Error::Loader(error, at),
            // Who has joined a cancelled load is told to begin anew, and nobody else is told.
            Failure::Panicked | Failure::Cancelled => Error::LoaderPanicked(at),
            Failure::Limits => Error::Limits(at),
        }
    }
}

/// What a load found: those who have joined it read it here, whatever happens to the key meanwhile.
pub(crate) type Found<V, E> = Result<Option<Versioned<V>>, Failure<E>>;

/// A call that has reserved a key, as others see it.
pub(crate) struct Flight<V, E> {
    /// The thread that ends it, or nobody.
    pub owner: u64,
    /// The ticket's number.
    pub number: u64,
    /// Set, and read, with the stripe's mutex held.
    pub is_over: AtomicBool,
    pub found: OnceLock<Found<V, E>>,
    pub waiters: Waiters,
}

/// What becomes of the entry of a key that a call has reserved, when that call ends.
#[derive(Clone, Copy, Debug, PartialEq, Eq)]
pub(crate) enum Fate {
    /// It is as the call leaves it.
    Stays,
    /// It is dropped.
    Dropped,
    /// It is dropped, and what begins before that waits for it.
    Overtaken,
}

pub(crate) struct Slot<K, V, E> {
    pub id: Id,
    hash: u64,
    /// The next slot whose key has the same hash.
    next: u32,
    /// None: the slot is free.
    key: Option<Arc<K>>,
    pub entry: Option<Versioned<V>>,
    /// Of the entry, if there is one.
    pub life: Life,
    /// How many calls have reserved the key or have joined its load.
    pub pins: usize,
    pub flight: Option<Arc<Flight<V, E>>>,
    /// Of the entry, if a call has reserved the key.
    pub fate: Fate,
    /// Joins that nobody waits for any more: they are picked up when the load is over.
    pub abandoned: Vec<Join>,
}

/// What a phase leaves behind: it is dropped, and wakers are woken, with no lock held.
pub(crate) struct Leavings<K, V, E> {
    pub keys: [Option<Arc<K>>; 2],
    pub left: Option<Versioned<V>>,
    pub evicted: Option<(Arc<K>, Versioned<V>)>,
    pub flight: Option<Arc<Flight<V, E>>>,
    pub table: Option<Table<K, V, E>>,
    pub wakers: Vec<Waker>,
    /// Of the step that dropped the entry which the phase had left.
    pub dropped: Option<Box<Leavings<K, V, E>>>,
}

impl<K, V, E> Default for Leavings<K, V, E> {
    fn default() -> Self {
        Leavings {
            keys: [None, None],
            left: None,
            evicted: None,
            flight: None,
            table: None,
            wakers: Vec::new(),
            dropped: None,
        }
    }
}

impl<K, V, E> Drop for Leavings<K, V, E> {
    fn drop(&mut self) {
        for waker in self.wakers.drain(..) {
            waker.wake();
        }
    }
}

/// A hash is its own hash.
#[derive(Default)]
pub(crate) struct Identity(u64);

impl Hasher for Identity {
    fn finish(&self) -> u64 {
        self.0
    }

    fn write(&mut self, _bytes: &[u8]) {
        unreachable!("only numbers are hashed")
    }

    fn write_u64(&mut self, number: u64) {
        self.0 = number;
    }
}

pub(crate) struct Table<K, V, E> {
    slots: Vec<Slot<K, V, E>>,
    free: Vec<u32>,
    /// The first slot of each hash.
    first: HashMap<u64, u32, BuildHasherDefault<Identity>>,
    last_version: u64,
}

impl<K, V, E> Table<K, V, E> {
    pub(crate) fn new() -> Self {
        Table {
            slots: Vec::new(),
            free: Vec::new(),
            first: HashMap::default(),
            last_version: NO_VERSION,
        }
    }

    pub(crate) fn slot(&mut self, slot: usize) -> &mut Slot<K, V, E> {
        &mut self.slots[slot]
    }

    pub(crate) fn at(&self, slot: usize) -> &Slot<K, V, E> {
        &self.slots[slot]
    }

    pub(crate) fn flight(&self, slot: usize) -> Option<&Arc<Flight<V, E>>> {
        self.slots[slot].flight.as_ref()
    }

    /// How many slots there are, free ones and others.
    pub(crate) fn len(&self) -> usize {
        self.slots.len()
    }

    pub(crate) fn slots(&self) -> impl Iterator<Item = &Slot<K, V, E>> {
        self.slots.iter().filter(|slot| slot.key.is_some())
    }

    /// The next version, for this value.
    pub(crate) fn version(&mut self, value: Option<Arc<V>>) -> Versioned<V> {
        self.last_version += 1;
        Versioned {
            version: self.last_version,
            value,
        }
    }

    /// The slot of a key, by what compares keys of its hash with it.
    #[inline]
    pub(crate) fn find(&self, hash: u64, is_key: impl Fn(&K) -> bool) -> Option<usize> {
        let mut at = *self.first.get(&hash)?;
        while at != NO_SLOT {
            let slot = &self.slots[at as usize];
            if is_key(slot.key()) {
                return Some(at as usize);
            }
            at = slot.next;
        }
        None
    }

    /// Gives a slot to a key that has none.
    pub(crate) fn add(&mut self, key: Arc<K>, hash: u64) -> usize {
        let next = self.first.get(&hash).copied().unwrap_or(NO_SLOT);
        let at = match self.free.pop() {
            Some(at) => at,
            None => self.new_slot(),
        };
        let slot = &mut self.slots[at as usize];
        slot.id = Id::new(at, slot.id.generation() + 1);
        slot.hash = hash;
        slot.next = next;
        slot.key = Some(key);
        self.first.insert(hash, at);
        at as usize
    }

    /// A stripe has at most 4,096 entries, 64 reservations, 64 joins, and one key that is being looked at.
    fn new_slot(&mut self) -> u32 {
        let at = self.slots.len() as u32;
        assert!(at < 1 << SLOT_BITS, "a stripe has no more slots");
        self.slots.push(Slot {
            id: Id::new(at, 0),
            hash: 0,
            next: NO_SLOT,
            key: None,
            entry: None,
            life: Life::ENDLESS,
            pins: 0,
            flight: None,
            fate: Fate::Stays,
            abandoned: Vec::new(),
        });
        at
    }

    /// Takes a slot back, if its key is neither cached nor reserved nor joined.
    pub(crate) fn release(&mut self, at: usize, keys: &mut Option<Arc<K>>) {
        let slot = &mut self.slots[at];
        if slot.key.is_none() || slot.entry.is_some() || slot.pins > 0 {
            return;
        }
        *keys = slot.key.take();
        let (hash, next) = (slot.hash, slot.next);
        self.unlink(at as u32, hash, next);
        if self.slots[at].id.generation() < LAST_GENERATION {
            self.free.push(at as u32);
        }
    }

    fn unlink(&mut self, at: u32, hash: u64, next: u32) {
        let mut before = self.first[&hash];
        if before == at {
            if next == NO_SLOT {
                self.first.remove(&hash);
            } else {
                self.first.insert(hash, next);
            }
            return;
        }
        while self.slots[before as usize].next != at {
            before = self.slots[before as usize].next;
        }
        self.slots[before as usize].next = next;
    }

    /// Does what the core says came and went with a step of the slot's key, which brought this value; and the entry lives as the step
    /// says.
    pub(crate) fn follow(
        &mut self,
        at: usize,
        moves: &Moves<'_>,
        brought: Option<&Versioned<V>>,
        renewal: &Renewal,
        leavings: &mut Leavings<K, V, E>,
    ) {
        if let Some((key, value)) = moves.victim {
            let id = Id::of(key);
            assert_eq!(self.slots[id.slot()].id, id, "the core names another key");
            let victim = self.slots[id.slot()].key().clone();
            leavings.evicted = self.take(id.slot(), value).map(|entry| (victim, entry));
            self.release(id.slot(), &mut leavings.keys[1]);
        }
        if let Some(value) = moves.left {
            leavings.left = self.take(at, value);
        }
        if moves.is_kept {
            self.slots[at].entry = brought.cloned();
        }
        renewal.renew(&mut self.slots[at].life, moves.is_kept);
    }

    fn take(&mut self, at: usize, value: &[u8]) -> Option<Versioned<V>> {
        let entry = self.slots[at].entry.take();
        let version = entry.as_ref().map(|entry| entry.version);
        assert_eq!(
            version,
            Some(number_of(value)),
            "the core has another value"
        );
        entry
    }

    /// The slot's value, which the core has, too.
    pub(crate) fn check(&self, at: usize, known: Option<&[u8]>) -> Option<Arc<V>> {
        let entry = self.slots[at].entry.as_ref();
        let version = entry.map(|entry| entry.version);
        assert_eq!(version, known.map(number_of), "the core has another value");
        entry.and_then(|entry| entry.value.clone())
    }

    /// What the core's reply stands for: the value is the slot's, before the step, or the loaded one.
    pub(crate) fn value(
        &self,
        at: usize,
        told: &Told<'_>,
        loaded: Option<&Versioned<V>>,
    ) -> Option<Arc<V>> {
        let Told::Value(Some(bytes)) = told else {
            return None;
        };
        let version = number_of(bytes);
        let held = [self.slots[at].entry.as_ref(), loaded];
        let found = held.into_iter().flatten().find(|it| it.version == version);
        found.expect("the core has another value").value.clone()
    }
}

impl<K, V, E> Slot<K, V, E> {
    pub(crate) fn has_expired(&self, now: Nanos) -> bool {
        self.entry.is_some() && self.life.is_over(now)
    }

    /// Whether the key is known to be absent: its entry has no value.
    pub(crate) fn is_absent(&self) -> bool {
        matches!(&self.entry, Some(entry) if entry.value.is_none())
    }

    /// Whether there is a value that calls find.
    pub(crate) fn is_cached(&self, now: Nanos) -> bool {
        matches!(&self.entry, Some(entry) if entry.value.is_some()) && !self.life.is_over(now)
    }

    /// No call sees the entry any more: it is as one that has expired, by any clock.
    pub(crate) fn hide(&mut self) {
        if self.entry.is_some() {
            self.life = Life::OVER;
        }
    }

    pub(crate) fn key(&self) -> &Arc<K> {
        self.key.as_ref().expect("a slot in use has a key")
    }
}
