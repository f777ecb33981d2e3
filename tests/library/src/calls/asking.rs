//! Each call once, with a loader, a writer and a listener that count how often they were called.
use super::bytes::{key, value};
use super::is;
use indexmap::{IndexMap, IndexSet};
use jc_model::{Change, LoadAnswer, WriteAnswer};
use jc_outside::{
    Answers, Ask, AskWrite, CacheLoader, CacheWriter, CompletionListener, Hands, Outside,
    call_loader, call_writer, played_load, played_write,
};
use jc_types::{Key, Refusal, Value};
use std::process::Abort;
use std::sync::Wait;
use std::test::Fail;

/// A store that has every key but `-`, and fails at `!`. Its values, and the code of its failure, are the number of the call.
#[derive(Drop)]
pub struct Counting {
    pub calls: u8,
}

impl Counting {
    fn call(&mut self, key: &Key) -> Result<Option<Value>, u32> {
        self.calls = self.calls.wrapping_add(1);
        match key.bytes() {
            b"!" => Err(self.calls as u32),
            b"-" => Ok(None),
            _ => Ok(Value::new(&[self.calls]).ok()),
        }
    }
}

impl CacheLoader for Counting {
    ghost load_state = { ? };

    ghost loads = { ? };

    ghost loads_all = { ? };

    fn load(&mut self, key: &Key) -> Result<Option<Value>, u32> {
        self.call(key)
    }

    fn load_all(&mut self, keys: &[Key], answers: &mut Answers) -> Result<(), u32> {
        for key in keys {
            if let Some(value) = self.call(key)? {
                answers.put(key, &value);
            }
        }
        Ok(())
    }
}

impl CacheWriter for Counting {
    ghost write_state = { ? };

    ghost writes = { ? };

    ghost writes_all = { ? };

    ghost deletes_all = { ? };

    fn write(&mut self, key: &Key, _value: &Value) -> Result<(), u32> {
        self.call(key)?;
        Ok(())
    }

    fn delete(&mut self, key: &Key) -> Result<(), u32> {
        self.call(key)?;
        self.calls = self.calls.wrapping_add(1);
        Ok(())
    }

    fn write_all(&mut self, entries: &mut IndexMap<Key, Value>) -> Result<(), u32> {
        self.calls = self.calls.wrapping_add(1);
        match entries.pop() {
            Some(_entry) => Ok(()),
            None => Err(self.calls as u32),
        }
    }

    fn delete_all(&mut self, keys: &mut IndexSet<Key>) -> Result<(), u32> {
        self.calls = self.calls.wrapping_add(1);
        match keys.pop() {
            Some(_key) => Ok(()),
            None => Err(self.calls as u32),
        }
    }
}

/// What a call asks.
pub struct Question {
    pub key: Key,
    pub change: Change,
}

impl Ask for Question {
    ghost key = { ? };

    fn key(&self) -> &Key {
        &self.key
    }

    fn spend(self) {
        let Question { key: _, change: _ } = self;
    }
}

impl AskWrite for Question {
    ghost change = { ? };

    fn change(&self) -> Change {
        self.change
    }
}

fn about(rt: &impl Abort, byte: u8, change: Change) -> Question {
    Question {
        key: key(rt, byte),
        change,
    }
}

fn load<R: Abort + Wait>(rt: &R, hands: &mut Hands<Outside>, byte: u8, want: LoadAnswer) {
    let ask = about(rt, byte, Change::Delete);
    is(rt, call_loader(rt, hands, ask).into_answer(), want);
}

fn write<R: Abort + Wait>(
    rt: &R,
    hands: &mut Hands<Outside>,
    byte: u8,
    change: Change,
    want: WriteAnswer,
) {
    let ask = about(rt, byte, change);
    is(rt, call_writer(rt, hands, ask).into_answer(), want);
}

#[test]
fn calls_the_loader_once(rt: HostRuntime) {
    let loader: Box<dyn CacheLoader + Send + Drop> = Box::new(rt.alloc(), Counting { calls: 0 })
        .ok()
        .expect(&rt, "memory");
    let mut hands = Hands::new(Outside {
        loader: Some(loader),
        writer: None,
    });
    load(&rt, &mut hands, b'a', LoadAnswer::Found(value(&rt, 1)));
    load(&rt, &mut hands, b'-', LoadAnswer::Nothing);
    load(&rt, &mut hands, b'!', LoadAnswer::Failed(3));
    load(&rt, &mut hands, b'a', LoadAnswer::Found(value(&rt, 4)));
    let mut nobody = Hands::new(Outside {
        loader: None,
        writer: None,
    });
    load(&rt, &mut nobody, b'a', LoadAnswer::Nothing);
}

#[test]
fn calls_the_writer_once(rt: HostRuntime) {
    let writer: Box<dyn CacheWriter + Send + Drop> = Box::new(rt.alloc(), Counting { calls: 0 })
        .ok()
        .expect(&rt, "memory");
    let mut hands = Hands::new(Outside {
        loader: None,
        writer: Some(writer),
    });
    let (put, again) = (Change::Write(value(&rt, 9)), Change::Write(value(&rt, 8)));
    write(&rt, &mut hands, b'a', put, WriteAnswer::Done);
    write(&rt, &mut hands, b'!', again, WriteAnswer::Failed(2));
    write(&rt, &mut hands, b'a', Change::Delete, WriteAnswer::Done);
    write(
        &rt,
        &mut hands,
        b'!',
        Change::Delete,
        WriteAnswer::Failed(5),
    );
}

#[test]
fn keeps_the_last_answer_of_each_asked_key(rt: HostRuntime) {
    let (a, b, c) = (key(&rt, b'a'), key(&rt, b'b'), key(&rt, b'c'));
    let mut answers = Answers::new(rt.alloc(), &[a, b, a]).expect(&rt, "memory");
    is(&rt, answers.get(&a), None);
    assert!(rt; answers.put(&a, &value(&rt, 1)));
    assert!(rt; answers.put(&a, &value(&rt, 2)));
    assert!(rt; !answers.put(&c, &value(&rt, 3)));
    is(&rt, answers.get(&a), Some(value(&rt, 2)));
    is(&rt, answers.get(&b), None);
    is(&rt, answers.get(&c), None);
    let mut none = Answers::new(rt.alloc(), &[]).expect(&rt, "memory");
    assert!(rt; !none.put(&a, &value(&rt, 1)));
}

#[test]
fn counts_what_is_held(rt: HostRuntime) {
    let mut hands = Hands::new(7_u8);
    hands.hold();
    hands.hold();
    hands.let_go();
    hands.let_go();
    is(&rt, hands.into_outside(), 7);
}

#[test]
fn plays_what_it_is_given(rt: HostRuntime) {
    let ask = about(&rt, b'a', Change::Delete);
    let done = played_load(ask, LoadAnswer::Failed(u32::MAX));
    is(&rt, done.into_answer(), LoadAnswer::Failed(u32::MAX));
    let ask = about(&rt, b'b', Change::Delete);
    let done = played_write(ask, WriteAnswer::Done);
    is(&rt, done.into_answer(), WriteAnswer::Done);
}

/// Hears the calls of a loader and a writer for many keys, and keeps the last refusal.
#[derive(Drop)]
struct Keeping {
    heard: Option<Refusal>,
}

impl CompletionListener for Keeping {
    ghost listener_state = { ? };

    ghost hears = { ? };

    fn on_completion(&mut self) {
        self.heard = None;
    }

    fn on_exception(&mut self, refusal: Refusal) {
        self.heard = Some(refusal);
    }
}

fn tell(listener: &mut dyn CompletionListener, end: Result<(), u32>) {
    match end {
        Ok(()) => listener.on_completion(),
        Err(code) => listener.on_exception(Refusal::LoaderFailed(code)),
    }
}

#[test]
fn asks_for_many_keys_at_once(rt: HostRuntime) {
    let (a, nothing, fails) = (key(&rt, b'a'), key(&rt, b'-'), key(&rt, b'!'));
    let mut store = Counting { calls: 0 };
    let mut listener = Keeping { heard: None };
    let mut answers = Answers::new(rt.alloc(), &[nothing, a]).expect(&rt, "memory");
    tell(&mut listener, store.load_all(&[nothing, a], &mut answers));
    is(&rt, listener.heard, None);
    is(&rt, answers.get(&a), Some(value(&rt, 2)));
    is(&rt, answers.get(&nothing), None);
    let mut answers = Answers::new(rt.alloc(), &[fails]).expect(&rt, "memory");
    tell(&mut listener, store.load_all(&[fails], &mut answers));
    is(&rt, listener.heard, Some(Refusal::LoaderFailed(3)));
}

#[test]
fn leaves_what_was_not_changed(rt: HostRuntime) {
    let mut store = Counting { calls: 0 };
    let mut entries = IndexMap::new(rt.alloc());
    entries
        .insert(key(&rt, b'a'), value(&rt, 9))
        .expect(&rt, "memory");
    is(&rt, store.write_all(&mut entries), Ok(()));
    is(&rt, entries.len(), 0);
    is(&rt, store.write_all(&mut entries), Err(2));
    let mut keys = IndexSet::new(rt.alloc());
    keys.insert(key(&rt, b'a')).expect(&rt, "memory");
    is(&rt, store.delete_all(&mut keys), Ok(()));
    is(&rt, keys.len(), 0);
    is(&rt, store.delete_all(&mut keys), Err(4));
}
