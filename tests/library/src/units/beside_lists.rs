//! Long runs of random calls, the same on the entries and on a plain list, and on a history and a plain vector of events.
use super::{is, key, value};
use jc_entries::{Entries, Inserted};
use jc_history::History;
use jc_model::{Cause, Effect, Event, LoadAnswer, Op, Out, ProcessAnswer, Reply, WriteAnswer};
use jc_types::{Caller, Key, Refusal, Value};
use std::alloc::Global;
use std::process::Abort;

/// Numbers that look random, and are the same in every run: a linear congruential generator.
#[derive(Drop)]
struct Numbers {
    state: u64,
}

impl Numbers {
    /// A number below `bound`.
    fn below(&mut self, bound: u8) -> u8 {
        let next = self.state.wrapping_mul(6364136223846793005);
        self.state = next.wrapping_add(1442695040888963407);
        let high = (self.state >> 56) as u8;
        (high as u16 * bound as u16 / 256) as u8
    }

    /// One of 12 keys, of one to three bytes.
    fn key(&mut self, rt: &impl Abort) -> Key {
        let byte = b'a'.wrapping_add(self.below(4));
        match self.below(3) {
            0 => key(rt, &[byte]),
            1 => key(rt, &[byte, b'.']),
            _ => key(rt, &[byte, b'.', byte]),
        }
    }

    /// The empty value, or one of up to two bytes.
    fn value(&mut self, rt: &impl Abort) -> Value {
        let byte = self.below(250);
        match self.below(3) {
            0 => value(rt, &[]),
            1 => value(rt, &[byte]),
            _ => value(rt, &[byte, 0]),
        }
    }
}

// 1. Entries.

/// Entries in order of use, the least recently used first.
#[derive(Drop)]
struct PlainList {
    capacity: usize,
    list: Vec<(Key, Value)>,
}

impl PlainList {
    fn find(&self, key: &Key) -> Option<Value> {
        match self.list.iter().find(|entry| entry.0 == *key) {
            Some(entry) => Some(entry.1),
            None => None,
        }
    }

    fn take(&mut self, key: &Key) -> Option<Value> {
        match self.list.iter().position(|entry| entry.0 == *key) {
            Some(place) => Some(self.list.remove(place).1),
            None => None,
        }
    }

    fn touch(&mut self, rt: &impl Abort, key: &Key) {
        if let Some(value) = self.take(key) {
            self.list.push((*key, value)).expect(rt, "memory");
        }
    }

    /// The least recently used key except this one.
    fn victim(&self, pinned: &Key) -> Option<Key> {
        match self.list.iter().find(|entry| entry.0 != *pinned) {
            Some(entry) => Some(entry.0),
            None => None,
        }
    }

    fn insert(&mut self, rt: &impl Abort, key: &Key, value: &Value, pinned: &Key) -> Inserted {
        let was_there = self.take(key).is_some();
        if was_there || self.list.len() < self.capacity {
            self.list.push((*key, *value)).expect(rt, "memory");
            return Inserted::Kept;
        }
        match self.victim(pinned) {
            None => Inserted::NotKept(Cause::Full, None),
            Some(victim) => {
                let _evicted = self.take(&victim);
                self.list.push((*key, *value)).expect(rt, "memory");
                Inserted::KeptAfter(victim)
            }
        }
    }
}

/// Makes one random call on both, and asserts that they answer the same.
fn calls_both(
    rt: &impl Abort,
    numbers: &mut Numbers,
    entries: &mut Entries,
    plain: &mut PlainList,
) {
    let key = numbers.key(rt);
    match numbers.below(6) {
        0 | 1 => {
            let value = numbers.value(rt);
            let pinned = numbers.key(rt);
            let wanted = plain.insert(rt, &key, &value, &pinned);
            is(
                rt,
                "insert",
                entries.insert(&key, &value, &[pinned]),
                wanted,
            );
        }
        2 => is(rt, "remove", entries.remove(&key), plain.take(&key)),
        3 | 4 => {
            let found = plain.find(&key);
            is(rt, "touch", entries.touch(&key), found.is_some());
            if found.is_some() {
                is(rt, "most recent", entries.most_recent().copied(), found);
            }
            plain.touch(rt, &key);
        }
        _ => is(rt, "peek", entries.peek(&key), plain.find(&key)),
    }
}

/// Asserts that both have the same keys, in the same order.
fn are_same(rt: &impl Abort, alloc: Global, entries: &Entries, plain: &PlainList) {
    let mut keys = Vec::with_capacity(alloc, entries.capacity()).expect(rt, "memory");
    entries.keys(&mut keys);
    for entry in &plain.list {
        is(rt, "order", keys.pop(), Some(entry.0));
    }
    is(rt, "order", keys.pop(), None);
}

/// A long run with this capacity.
fn runs_beside(rt: &impl Abort, alloc: Global, capacity: usize) {
    assert!(rt; 0 < capacity && capacity <= 4_096);
    let mut entries = Entries::new(alloc, capacity).expect(rt, "memory");
    let mut plain = PlainList {
        capacity,
        list: Vec::new(alloc),
    };
    let mut numbers = Numbers { state: 1 };
    for _call in 0..2_000 {
        calls_both(rt, &mut numbers, &mut entries, &mut plain);
        are_same(rt, alloc, &entries, &plain);
    }
}

#[test]
fn entries_are_a_plain_list(rt: HostRuntime) {
    runs_beside(&rt, rt.alloc(), 1);
    runs_beside(&rt, rt.alloc(), 5);
    runs_beside(&rt, rt.alloc(), 11);
}

// 2. A history.

impl Numbers {
    fn op(&mut self, rt: &impl Abort) -> Op {
        let (first, second) = (self.value(rt), self.value(rt));
        match self.below(14) {
            0 => Op::Get,
            1 => Op::ContainsKey,
            2 => Op::Put(first),
            3 => Op::GetAndPut(first),
            4 => Op::PutIfAbsent(first),
            5 => Op::Remove,
            6 => Op::RemoveIf(first),
            7 => Op::GetAndRemove,
            8 => Op::Replace(first),
            9 => Op::ReplaceIf {
                old: first,
                new: second,
            },
            10 => Op::GetAndReplace(first),
            11 => Op::Clear,
            12 => Op::LoadAll {
                replace: second.bytes().is_empty(),
            },
            _ => Op::Invoke,
        }
    }

    fn load(&mut self, rt: &impl Abort) -> LoadAnswer {
        match self.below(4) {
            0 => LoadAnswer::Found(self.value(rt)),
            1 => LoadAnswer::Nothing,
            2 => LoadAnswer::Failed(self.below(200) as u32),
            _ => LoadAnswer::NotAsked,
        }
    }

    fn process(&mut self, rt: &impl Abort) -> ProcessAnswer {
        match self.below(4) {
            0 => ProcessAnswer::Ended {
                effect: Effect::Set(self.value(rt)),
                outcome: Some(self.value(rt)),
            },
            1 => ProcessAnswer::Ended {
                effect: Effect::Remove,
                outcome: None,
            },
            2 => ProcessAnswer::Failed(self.below(200) as u32),
            _ => ProcessAnswer::NotAsked,
        }
    }

    fn reply(&mut self, rt: &impl Abort) -> Reply {
        match self.below(5) {
            0 => Reply::Value(Some(self.value(rt))),
            1 => Reply::Value(None),
            2 => Reply::Flag(self.below(2) == 0),
            3 => Reply::Fault(Refusal::WriterFailed(self.below(200) as u32)),
            _ => Reply::Unit,
        }
    }

    /// A step of this operation, with these answers of the loader and the processor.
    fn step(&mut self, rt: &impl Abort, op: Op, load: LoadAnswer, process: ProcessAnswer) -> Event {
        Event::Step {
            caller: Caller {
                session: 1 + self.below(32) as u32,
                call: self.below(250) as u64,
            },
            op,
            key: self.key(rt),
            out: Out {
                load,
                write: WriteAnswer::Failed(self.below(200) as u32),
                process,
            },
            shared_with: Some(self.below(250) as u32),
            reply: self.reply(rt),
        }
    }

    fn event(&mut self, rt: &impl Abort) -> Event {
        match self.below(4) {
            0 => Event::Evict {
                key: self.key(rt),
                cause: Cause::Full,
            },
            1 => {
                let op = self.op(rt);
                self.step(rt, op, LoadAnswer::NotAsked, ProcessAnswer::NotAsked)
            }
            2 => {
                let load = self.load(rt);
                self.step(rt, Op::Get, load, ProcessAnswer::NotAsked)
            }
            _ => {
                let process = self.process(rt);
                self.step(rt, Op::Invoke, LoadAnswer::NotAsked, process)
            }
        }
    }
}

/// Pushes an event into both, and reads it back.
fn pushes_both(rt: &impl Abort, history: &mut History, plain: &mut Vec<Event>, event: &Event) {
    assert!(rt; history.promise(1));
    history.push(event, true);
    plain.push(*event).expect(rt, "memory");
    is(rt, "length", history.len(), plain.len());
}

/// Reads all events back at once.
fn has_all(rt: &impl Abort, alloc: Global, history: &History, plain: &[Event]) {
    let mut found = Vec::new(alloc);
    let len = history.len();
    history.append_to(0, len, &mut found).expect(rt, "memory");
    is(rt, "all", found.as_slice(), plain);
    let events = history.events(alloc).expect(rt, "memory");
    is(rt, "events", events.as_slice(), plain);
}

#[test]
fn a_history_is_a_plain_vector(rt: HostRuntime) {
    let alloc = rt.alloc();
    let mut history = History::new(alloc, 1_000).expect(&rt, "memory");
    let mut plain = Vec::new(alloc);
    let mut numbers = Numbers { state: 7 };
    for _event in 0..1_000 {
        let event = numbers.event(&rt);
        pushes_both(&rt, &mut history, &mut plain, &event);
    }
    has_all(&rt, alloc, &history, &plain);
}
