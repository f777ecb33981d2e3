//! An entry processor that makes the calls which it is told.
use crate::common::words::value;
use jc_model::EntryCall;
use jc_mutentry::{EntryProcessor, MutableEntry};
use jc_outside::CacheLoader;
use jc_types::Value;
use std::alloc::Global;
use std::process::Abort;

/// One of its calls.
#[derive(Drop)]
enum Scene {
    Call(EntryCall),
    /// Sets the digit after the one that it got last. None counts as 0.
    SetNext,
}

/// Makes four calls on its entry, whatever they answer. It returns the last value that it got, or fails with a code.
#[derive(Drop)]
pub struct Scripted {
    scenes: [Scene; 4],
    fail: Option<u32>,
}

impl Scripted {
    /// Words such as `get set=2 next remove exists`, and `fail=C` at the end if it is to fail. If less than four are given, it also
    /// asks whether the entry is there.
    pub fn of(rt: &impl Abort, text: &str) -> Self {
        let (words, fail) = text.split_once(" fail=").unwrap_or((text, ""));
        let mut words = words.split(' ');
        Scripted {
            scenes: [
                read_scene(rt, words.next()),
                read_scene(rt, words.next()),
                read_scene(rt, words.next()),
                read_scene(rt, words.next()),
            ],
            fail: fail.parse().ok(),
        }
    }
}

/// Makes no call on its entry, and returns none.
#[derive(Drop)]
pub struct Silent;

impl EntryProcessor for Silent {
    ghost process_state = { ? };

    ghost processes = { ? };

    fn process(
        &mut self,
        _entry: &mut MutableEntry,
        _loader: &mut dyn CacheLoader,
        _args: &[Value],
    ) -> Result<Option<Value>, u32> {
        Ok(None)
    }
}

/// A processor that makes the calls which a text says, or none if it says `nothing`.
pub fn processor_of(
    rt: &impl Abort,
    alloc: Global,
    text: &str,
) -> Box<dyn EntryProcessor + Send + Drop> {
    if text == "nothing" {
        return Box::new(alloc, Silent).ok().expect(rt, "memory");
    }
    Box::new(alloc, Scripted::of(rt, text))
        .ok()
        .expect(rt, "memory")
}

fn read_scene(rt: &impl Abort, word: Option<&str>) -> Scene {
    Scene::Call(match word {
        None | Some("exists") => EntryCall::Exists,
        Some("next") => return Scene::SetNext,
        Some("get") => EntryCall::GetValue,
        Some("remove") => EntryCall::Remove,
        Some(word) => EntryCall::SetValue(value(rt, word.strip_prefix("set=").expect(rt, word))),
    })
}

/// The value of the digit after the one that this value begins with.
fn next(last: &Option<Value>) -> Option<Value> {
    let digit = match last {
        Some(value) => *value.bytes().first()?,
        None => b'0',
    };
    Value::new(&[digit.saturating_add(1)]).ok()
}

/// The call that follows, after this value was got last.
fn call_after(scene: &Scene, last: &Option<Value>) -> EntryCall {
    match scene {
        Scene::Call(call) => *call,
        Scene::SetNext => next(last).map_or(EntryCall::Exists, EntryCall::SetValue),
    }
}

/// Makes one call. A value that it answers is the last one from then on.
fn make_call(
    entry: &mut MutableEntry,
    loader: &mut dyn CacheLoader,
    call: &EntryCall,
    last: &mut Option<Value>,
) {
    match call {
        EntryCall::GetValue => *last = entry.get_value(loader).ok().flatten(),
        EntryCall::Exists => {
            let _there = entry.exists();
        }
        EntryCall::SetValue(value) => entry.set_value(value),
        EntryCall::Remove => entry.remove(),
    }
}

impl EntryProcessor for Scripted {
    ghost process_state = { ? };

    ghost processes = { ? };

    fn process(
        &mut self,
        entry: &mut MutableEntry,
        loader: &mut dyn CacheLoader,
        _args: &[Value],
    ) -> Result<Option<Value>, u32> {
        let mut last = None;
        make_call(
            entry,
            loader,
            &call_after(&self.scenes[0], &last),
            &mut last,
        );
        make_call(
            entry,
            loader,
            &call_after(&self.scenes[1], &last),
            &mut last,
        );
        make_call(
            entry,
            loader,
            &call_after(&self.scenes[2], &last),
            &mut last,
        );
        make_call(
            entry,
            loader,
            &call_after(&self.scenes[3], &last),
            &mut last,
        );
        match self.fail {
            Some(code) => Err(code),
            None => Ok(last),
        }
    }
}
