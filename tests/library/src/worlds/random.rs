//! Long runs of random events with a fixed seed, compared with a plain reading of their order.
use super::courses::{shown_of, word_of};
use super::{config, key_at, key_of, value_of};
use indexmap::{IndexMap, IndexSet};
use jc_model::{Cause, Event, LoadAnswer, Op, Out, Reply, legal};
use jc_types::{Config, Key, Value, stripe_of};
use jc_world::command::Command;
use jc_world::event::{Outcome, Shown, WorldEvent};
use jc_world::reports::LeftKeys;
use jc_world::world::World;
use std::alloc::Global;
use std::process::Abort;

/// The keys of the runs.
const NAMES: [&str; 4] = ["a", "b", "c", "d"];

// 1. Random values.

/// A linear congruential generator.
#[derive(Drop)]
struct Rng {
    state: u64,
}

impl Rng {
    /// A number below `bound`.
    fn next(&mut self, bound: u8) -> u8 {
        let next = self.state.wrapping_mul(6364136223846793005);
        self.state = next.wrapping_add(1442695040888963407);
        let drawn = (self.state >> 56) as u8;
        (drawn as u16 * bound as u16 / 256) as u8
    }

    fn key(&mut self, rt: &impl Abort) -> Key {
        let place = self.next(4);
        let name = NAMES.get(place as usize).expect(rt, "a name");
        key_of(rt, name)
    }

    fn value(&mut self, rt: &impl Abort) -> Value {
        let name = match self.next(2) {
            0 => "0",
            _ => "1",
        };
        value_of(rt, name)
    }

    fn op(&mut self, rt: &impl Abort) -> Op {
        let (first, second) = (self.value(rt), self.value(rt));
        match self.next(18) {
            0 => Op::ContainsKey,
            1 | 2 => Op::Put(first),
            3 => Op::GetAndPut(first),
            4 => Op::PutIfAbsent(first),
            5 => Op::Remove,
            6 => Op::RemoveIf(first),
            7 => Op::GetAndRemove,
            8 => Op::Replace(first),
            9 => Op::ReplaceIf {
                old: first,
                new: second,
            },
            10 => Op::GetAndReplace(first),
            _ => Op::Get,
        }
    }

    /// Up to three keys.
    fn keys(&mut self, rt: &impl Abort, alloc: Global) -> IndexSet<Key> {
        let mut keys = IndexSet::new(alloc);
        for _key in 0..self.next(4) {
            keys.insert(self.key(rt)).ok().expect(rt, "memory");
        }
        keys
    }

    /// A call of one key, or of many.
    fn command(&mut self, rt: &impl Abort, alloc: Global) -> Command {
        match self.next(13) {
            0 => Command::GetAll {
                keys: self.keys(rt, alloc),
            },
            1 => Command::PutAll {
                entries: self.entries(rt, alloc),
            },
            2 => Command::RemoveAll {
                keys: self.keys(rt, alloc),
            },
            3 => Command::RemoveEvery,
            4 => Command::Clear,
            5 => Command::LoadAll {
                replace: self.next(2) == 0,
                keys: self.keys(rt, alloc),
            },
            _ => Command::Single {
                op: self.op(rt),
                key: self.key(rt),
            },
        }
    }

    /// Up to three entries.
    fn entries(&mut self, rt: &impl Abort, alloc: Global) -> IndexMap<Key, Value> {
        let keys = self.keys(rt, alloc);
        let mut entries = IndexMap::new(alloc);
        for key in &keys {
            entries
                .insert(*key, self.value(rt))
                .ok()
                .expect(rt, "memory");
        }
        entries
    }

    /// The rest of a writer's collection: a key, or none.
    fn left(&mut self, rt: &impl Abort, alloc: Global) -> LeftKeys {
        match self.next(2) {
            0 => LeftKeys::one(alloc, &self.key(rt)).expect(rt, "memory"),
            _ => LeftKeys::new(alloc),
        }
    }

    /// An event that a loader or a writer may cause, whether it fits or not.
    fn answer(&mut self, rt: &impl Abort, alloc: Global, call: u64, key: Key) -> WorldEvent {
        match self.next(9) {
            0 | 1 => WorldEvent::Read { call, key },
            2 => {
                let answer = LoadAnswer::Found(self.value(rt));
                WorldEvent::Say { call, key, answer }
            }
            3 => {
                let answer = LoadAnswer::Failed(7);
                WorldEvent::Say { call, key, answer }
            }
            4 | 5 => WorldEvent::Change { call, key },
            6 | 7 => WorldEvent::Report {
                call,
                left: self.left(rt, alloc),
                fault: None,
            },
            _ => WorldEvent::Report {
                call,
                left: self.left(rt, alloc),
                fault: Some(9),
            },
        }
    }

    /// An event that may happen to a call, whether it fits or not.
    fn event(&mut self, rt: &impl Abort, alloc: Global, call: u64, key: Key) -> WorldEvent {
        match self.next(20) {
            0 | 1 | 2 => WorldEvent::Commit { call, key },
            3 => WorldEvent::PickUp { call, key },
            4 => WorldEvent::Withdraw { call, key },
            5 | 6 | 7 => WorldEvent::Start { call, key },
            8 => WorldEvent::Foreign { key, value: None },
            9 => WorldEvent::Leave { call },
            10 => WorldEvent::Look {
                call,
                stripe: self.next(2) as usize,
            },
            11 => match self.next(5) {
                0 => WorldEvent::Invalidate { key },
                _ => WorldEvent::PickUp { call, key },
            },
            _ => self.answer(rt, alloc, call, key),
        }
    }
}

// 2. A plain reading of the appended events.

/// The effect of a step on the entry of its key.
#[derive(Drop)]
enum Use {
    /// The entry has this value, and is the most recently used.
    Front(Value),
    /// The entry is gone.
    Gone,
    /// The entry and the order of use stay.
    Nothing,
}

/// The effect of a step with these answers and this reply on an entry with this value.
fn use_of(op: &Op, out: &Out, reply: &Reply, was: Option<Value>) -> Use {
    let stays = match was {
        Some(value) => Use::Front(value),
        None => Use::Nothing,
    };
    match (op, reply) {
        (_, Reply::Fault(_)) | (Op::ContainsKey, _) => Use::Nothing,
        (Op::Get, Reply::Value(Some(value))) => Use::Front(*value),
        (Op::Put(value) | Op::GetAndPut(value), _) => Use::Front(*value),
        (Op::Remove | Op::GetAndRemove | Op::Clear, _) => Use::Gone,
        (Op::RemoveIf(_), Reply::Flag(true)) => Use::Gone,
        (Op::PutIfAbsent(value) | Op::Replace(value), Reply::Flag(true)) => Use::Front(*value),
        (Op::ReplaceIf { old: _, new: value }, Reply::Flag(true)) => Use::Front(*value),
        (Op::GetAndReplace(value), Reply::Value(Some(_))) => Use::Front(*value),
        (Op::LoadAll { .. }, _) => match &out.load {
            LoadAnswer::Found(value) => Use::Front(*value),
            _ => Use::Nothing,
        },
        _ => stays,
    }
}

/// Entries of all stripes in order of use, the most recently used first, after a number of events.
#[derive(Drop)]
struct Shelf {
    stripes: usize,
    entries: Vec<(Key, Value)>,
    read: usize,
    victims: bool,
    not_kept: bool,
    invalidated: bool,
    shared: bool,
}

impl Shelf {
    fn value(&self, key: &Key) -> Option<Value> {
        for (at, value) in &self.entries {
            if at == key {
                return Some(*value);
            }
        }
        None
    }

    fn take_out(&mut self, key: &Key) {
        self.entries.retain(|e| e.0 != *key);
    }

    /// The stripe of a key.
    fn stripe(&self, key: &Key) -> usize {
        if self.stripes == 0 {
            return 0;
        }
        stripe_of(key, self.stripes)
    }

    /// The least recently used key in the stripe of a key, except these keys.
    fn oldest(&self, near: &Key, pinned: &[Key]) -> Option<Key> {
        let mut oldest = None;
        for (key, _) in &self.entries {
            if self.stripe(key) == self.stripe(near) && !pinned.contains(key) {
                oldest = Some(*key);
            }
        }
        oldest
    }

    /// The most recently used of all.
    fn newest(&self) -> Option<Key> {
        match self.entries.first() {
            Some((key, _)) => Some(*key),
            None => None,
        }
    }

    /// The history of a stripe: its part of the order.
    fn history(
        &self,
        rt: &impl Abort,
        alloc: Global,
        order: &[Event],
        stripe: usize,
    ) -> Vec<Event> {
        let mut events = Vec::new(alloc);
        for event in order {
            if self.stripe(&key_at(event)) == stripe {
                events.push(*event).expect(rt, "memory");
            }
        }
        events
    }

    fn reads(&mut self, rt: &impl Abort, event: &Event) {
        match event {
            Event::Evict { key, .. } => self.take_out(key),
            Event::Step {
                op,
                key,
                out,
                shared_with: None,
                reply,
                ..
            } => match use_of(op, out, reply, self.value(key)) {
                Use::Front(value) => {
                    self.take_out(key);
                    self.entries.insert(0, (*key, value)).expect(rt, "memory");
                }
                Use::Gone => self.take_out(key),
                Use::Nothing => {}
            },
            Event::Step { .. } => self.shared = true,
        }
    }

    /// The key that goes: the event is the first of a phase, or not. Before the phase these keys were reserved.
    fn gone(&mut self, first: bool, key: &Key, cause: &Cause, pinned: &[Key]) -> Option<Key> {
        match (cause, first) {
            (Cause::Invalidated, _) => {
                self.invalidated = true;
                self.value(key).map(|_| *key)
            }
            (_, true) => {
                self.victims = true;
                self.oldest(key, pinned)
            }
            (_, false) => {
                self.not_kept = true;
                self.newest()
            }
        }
    }

    /// Reads the events that one event of the world appended. Before it these keys were reserved.
    fn reads_phase(&mut self, rt: &impl Abort, events: &[Event], pinned: &[Key]) {
        for (k, event) in events.iter().skip(self.read).enumerate() {
            if let Event::Evict { key, cause } = event {
                let goes = self.gone(k == 0, key, cause, pinned);
                assert!(rt; goes == Some(*key), "another key goes");
            }
            self.reads(rt, event);
        }
        self.read = events.len();
    }
}

// 3. The runs.

/// The number of kinds of outcomes, except those of entry processors and of reopenings, which these runs don't have.
const KINDS: usize = 21;

fn kind(outcome: &Outcome) -> usize {
    match outcome {
        Outcome::Begun => 0,
        Outcome::Stepped(_) => 1,
        Outcome::Loads => 2,
        Outcome::Asks(_) => 3,
        Outcome::Joins => 4,
        Outcome::Refused(_) => 5,
        Outcome::Reads(_) => 6,
        Outcome::Says(_) => 7,
        Outcome::Changed => 8,
        Outcome::Reported(_) => 9,
        Outcome::Withdrawn(_) => 10,
        Outcome::Left => 11,
        Outcome::PickedUp(_) => 12,
        Outcome::Waits => 13,
        Outcome::Again => 14,
        Outcome::Written => 15,
        Outcome::Unfit => 16,
        Outcome::Looked => 17,
        Outcome::PutOff(_) => 18,
        Outcome::Marked => 19,
        Outcome::Invalidated(_) => 20,
        Outcome::Processes(_) | Outcome::Processed(_) | Outcome::Reopened(_) => KINDS,
    }
}

/// Whether an event that shows this appended one.
fn appends(outcome: &Outcome) -> bool {
    matches!(
        outcome,
        Outcome::Stepped(_) | Outcome::Withdrawn(Some(_)) | Outcome::Invalidated(Some(_))
    )
}

/// The key of a call of one key.
fn key_of_single(command: &Command) -> Option<Key> {
    match command {
        Command::Single { op: _, key } => Some(*key),
        _ => None,
    }
}

/// A run of a world: the last call of each session, with its key if it has only one; the reading; the keys that were invalidated while
/// they were reserved, and still are; how often each kind was shown; how often an event of a call fitted; and how many bulk calls
/// began, were shown to be over, and left.
#[derive(Drop)]
struct Run {
    rng: Rng,
    calls: Vec<(u64, Option<Key>)>,
    shelf: Shelf,
    marked: Vec<Key>,
    shown: [u32; KINDS],
    fitting: u32,
    begun: u32,
    over: u32,
    left: u32,
}

impl Run {
    /// The keys that are reserved.
    fn pinned(&self, rt: &impl Abort, alloc: Global, world: &World) -> Vec<Key> {
        let mut keys = Vec::with_capacity(alloc, NAMES.len()).expect(rt, "memory");
        for name in NAMES {
            let key = key_of(rt, name);
            if self.is_reserved(world, &key) {
                keys.push(key).expect(rt, "memory");
            }
        }
        keys
    }

    /// Whether the last call of a session has reserved a key.
    fn is_reserved(&self, world: &World, key: &Key) -> bool {
        self.calls
            .iter()
            .any(|(call, _key)| world.is_reserved(*call, key))
    }

    /// Plays one event, reads the events that it appended, and counts its outcome. It returns a word for the outcome.
    fn plays(
        &mut self,
        rt: &impl Abort,
        alloc: Global,
        world: &mut World,
        event: WorldEvent,
    ) -> &'static str {
        let keys = self.pinned(rt, alloc, world);
        let invalidated = match &event {
            WorldEvent::Invalidate { key } => Some(*key),
            _ => None,
        };
        let shown = shown_of(rt, alloc, world, event);
        // No other event of the world appends one: if one did, it would be read as part of the next step, and not agree.
        if appends(&shown.outcome) {
            let order = world.order(alloc).expect(rt, "memory");
            self.shelf.reads_phase(rt, &order, &keys);
        }
        self.forgets(rt, world, &shown.outcome, invalidated);
        self.counts(rt, world, &shown);
        word_of(&shown.outcome)
    }

    /// Asserts that a key that was invalidated has no entry, from then on or from the end of its reservation on.
    fn forgets(
        &mut self,
        rt: &impl Abort,
        world: &World,
        outcome: &Outcome,
        invalidated: Option<Key>,
    ) {
        if let (Some(key), Outcome::Marked | Outcome::Invalidated(_)) = (invalidated, outcome) {
            self.marked.push(key).expect(rt, "memory");
        }
        for name in NAMES {
            let key = key_of(rt, name);
            if self.marked.contains(&key) && !self.is_reserved(world, &key) {
                assert!(rt; self.shelf.value(&key).is_none(), "it is forgotten");
                self.marked.retain(|marked| *marked != key);
            }
        }
    }

    /// Counts an outcome.
    fn counts(&mut self, rt: &impl Abort, world: &World, shown: &Shown) {
        if let Some(count) = self.shown.get_mut(kind(&shown.outcome)) {
            *count = count.saturating_add(1);
        }
        if !matches!(&shown.outcome, Outcome::Begun | Outcome::Unfit) {
            self.fitting = self.fitting.saturating_add(1);
        }
        if let Some(over) = &shown.over {
            assert!(rt; world.open_call(over.call).is_none(), "it is over");
            self.over = self.over.saturating_add(1);
        }
    }

    /// The next event of a session: of its call, or a call with this number and a first phase.
    fn goes_on(&mut self, rt: &impl Abort, alloc: Global, world: &mut World, number: u64) {
        let place = self.rng.next(5);
        if world.is_busy(place as u32 + 1) {
            self.continues(rt, alloc, world, place);
        } else {
            self.begins(rt, alloc, world, place, number);
        }
    }

    /// An event of the call that the session at this place has under way.
    fn continues(&mut self, rt: &impl Abort, alloc: Global, world: &mut World, place: u8) {
        let any = self.rng.key(rt);
        let (call, key) = *self.calls.get(place as usize).expect(rt, "a session");
        let event = self.rng.event(rt, alloc, call, key.unwrap_or(any));
        let word = self.plays(rt, alloc, world, event);
        if key.is_none() && word == "left" {
            self.left = self.left.saturating_add(1);
        }
    }

    /// A call of the session at this place, with this number, and a first phase.
    fn begins(
        &mut self,
        rt: &impl Abort,
        alloc: Global,
        world: &mut World,
        place: u8,
        number: u64,
    ) {
        let any = self.rng.key(rt);
        let command = self.rng.command(rt, alloc);
        let key = key_of_single(&command);
        *self.calls.get_mut(place as usize).expect(rt, "a session") = (number, key);
        if key.is_none() {
            self.begun = self.begun.saturating_add(1);
        }
        let call = WorldEvent::Call {
            call: number,
            session: place as u32 + 1,
            command,
        };
        let word = self.plays(rt, alloc, world, call);
        assert!(rt; word == "begun", "a call fits");
        self.starts(rt, alloc, world, number, key.unwrap_or(any));
    }

    /// The first phase of a call at a key.
    fn starts(&mut self, rt: &impl Abort, alloc: Global, world: &mut World, call: u64, key: Key) {
        self.plays(rt, alloc, world, WorldEvent::Start { call, key });
    }

    /// Asserts that the history of each stripe is legal, and that the entries are those of the reading.
    fn agrees(&mut self, rt: &impl Abort, alloc: Global, world: &World, config: &Config) {
        let order = world.order(alloc).expect(rt, "memory");
        for stripe in 0..config.stripes {
            let history = self.shelf.history(rt, alloc, &order, stripe);
            assert!(rt; legal(alloc, config, &[], &history).expect(rt, "memory"));
        }
        let audit = world.audit(alloc).expect(rt, "memory");
        self.shelf.entries.sort().expect(rt, "memory");
        assert!(rt;
            audit.cache.as_slice() == self.shelf.entries.as_slice(),
            "the entries"
        );
    }

    /// Asserts that each bulk call is under way, or was shown to be over, or has left.
    fn has_told_each_end(&self, rt: &impl Abort, world: &World) {
        let under_way = self
            .calls
            .iter()
            .filter(|(call, key)| key.is_none() && world.open_call(*call).is_some())
            .count();
        assert!(rt; 0 < self.over && 0 < self.left);
        let ended = self.over.saturating_add(self.left) as usize;
        assert!(rt; ended.saturating_add(under_way) == self.begun as usize);
    }

    /// Asserts that each kind was shown, and each kind of eviction was met.
    fn has_met_all(&self, rt: &impl Abort) {
        let shelf = &self.shelf;
        assert!(rt; shelf.victims, "evictions of a full stripe");
        assert!(rt; shelf.not_kept, "entries that aren't kept");
        assert!(rt; shelf.invalidated, "evictions of invalidated keys");
        assert!(rt; shelf.shared, "shared loads");
        assert!(rt; 1000 < self.fitting);
        for (kind, count) in self.shown.iter().enumerate() {
            assert!(rt; 0 < *count, "the kind {kind}");
        }
    }
}

fn runs_at_random(rt: &impl Abort, alloc: Global, config: &Config) {
    let mut world = World::new(alloc, config).expect(rt, "a world");
    let mut run = Run {
        rng: Rng { state: 5 },
        calls: vec![in alloc; (0, None); 5].expect(rt, "memory"),
        shelf: Shelf {
            stripes: config.stripes,
            entries: Vec::with_capacity(alloc, 8).expect(rt, "memory"),
            read: 0,
            victims: false,
            not_kept: false,
            invalidated: false,
            shared: false,
        },
        marked: Vec::new(alloc),
        shown: [0; KINDS],
        fitting: 0,
        begun: 0,
        over: 0,
        left: 0,
    };
    for number in 1..10000u64 {
        run.goes_on(rt, alloc, &mut world, number);
    }
    run.agrees(rt, alloc, &world, config);
    run.has_told_each_end(rt, &world);
    run.has_met_all(rt);
    world.close();
}

#[test]
fn stays_legal_over_a_long_run(rt: HostRuntime) {
    runs_at_random(&rt, rt.alloc(), &config(1, 2, 16384));
}

#[test]
fn stays_legal_over_a_long_run_of_two_stripes(rt: HostRuntime) {
    runs_at_random(&rt, rt.alloc(), &config(2, 1, 16384));
}
