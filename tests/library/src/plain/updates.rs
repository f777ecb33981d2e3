//! Runs of an update on one entry, with a loader of letters.
use super::letters::Letters;
use super::{is, key, load_answer, value};
use jc_model::{Effect, ProcessAnswer};
use jc_mutentry::{AskProcess, EntryProcessor, run_processor};
use jc_outside::{Ask, CacheLoader, Hands, Outside};
use jc_plain::{Loading, Update, Updating};
use jc_types::{Key, Value};
use std::alloc::Global;
use std::process::Abort;
use std::sync::Wait;

/// The first argument names what it does: `set` the second argument or none, set the `key`, `remove`, `fail` with the code `9`
/// after a change, or nothing. It returns the value that it was given.
#[derive(Drop)]
struct Edit;

impl Update for Edit {
    fn update(
        &mut self,
        key: &Key,
        value: &mut Option<Value>,
        args: &[Value],
    ) -> Result<Option<Value>, u32> {
        let old = *value;
        let (Some(word), operand) = (args.first(), args.get(1)) else {
            return Ok(old);
        };
        match word.bytes() {
            b"set" => *value = operand.copied(),
            b"key" => *value = Value::new(key.bytes()).ok(),
            b"remove" => *value = None,
            b"fail" => {
                *value = None;
                return Err(u32::from(b'9'));
            }
            _ => {}
        }
        Ok(old)
    }
}

/// A run: the key and the value of its entry, the arguments, and its outcome: the loader's answer, the net effect, and the
/// processor's return.
///
/// A value is one byte, where `0` is the empty value and `-` none. The loader has each small letter as its own value, and fails
/// at each capital one; `.` says that it wasn't asked. The net effect is `=` to keep the entry, `-` to remove it, the value to
/// set, or `!` if the processor fails, with the code of the last byte.
type Row = (&'static str, &'static str, &'static str);

// With read-through: the loader may be asked if there is no entry.
const ROWS: &[Row] = &[
    ("a1", "keep", ".=1"),
    ("a1", "", ".=1"),
    ("a1", "set 2", ".21"),
    ("a1", "set 1", ".=1"),
    ("a1", "set 0", ".01"),
    ("a0", "set 0", ".=0"),
    ("a1", "set", ".-1"),
    ("a1", "key", ".a1"),
    ("a1", "remove", ".-1"),
    ("a0", "remove", ".-0"),
    ("a1", "fail", ".!9"),
    ("B1", "set 2", ".21"),
    ("--", "keep", "-=-"),
    ("--", "set 2", "-2-"),
    ("--", "set 0", "-0-"),
    ("--", "remove", "-=-"),
    ("--", "fail", "-!9"),
    ("a-", "keep", "a=a"),
    ("a-", "set 2", "a2a"),
    ("a-", "set a", "a=a"),
    ("a-", "remove", "a-a"),
    ("a-", "fail", "a!9"),
    ("B-", "set 2", "B!B"),
    ("B-", "fail", "B!B"),
];

// Without read-through nobody is asked.
const ALONE: &[Row] = &[
    ("a-", "keep", ".=-"),
    ("a-", "set 2", ".2-"),
    ("a-", "remove", ".=-"),
    ("B-", "set 2", ".2-"),
    ("B1", "remove", ".-1"),
];

/// An ask of a processor.
struct Asked {
    key: Key,
    initial: Option<Value>,
    may_load: bool,
}

impl Ask for Asked {
    ghost key = { ? };

    fn key(&self) -> &Key {
        &self.key
    }

    fn spend(self) {
        let Asked {
            key: _,
            initial: _,
            may_load: _,
        } = self;
    }
}

impl AskProcess for Asked {
    ghost initial = { ? };

    ghost may_load = { ? };

    fn initial(&self) -> Option<Value> {
        self.initial
    }

    fn may_load(&self) -> bool {
        self.may_load
    }
}

/// The value that a byte stands for.
fn maybe(rt: &impl Abort, byte: u8) -> Option<Value> {
    match byte {
        b'-' => None,
        b'0' => Some(Value::new(&[]).ok().expect(rt, "an empty value")),
        _ => Some(value(rt, byte)),
    }
}

fn effect(rt: &impl Abort, byte: u8) -> Effect {
    match byte {
        b'=' => Effect::Keep,
        b'-' => Effect::Remove,
        _ => match maybe(rt, byte) {
            Some(value) => Effect::Set(value),
            None => Effect::Remove,
        },
    }
}

fn process_answer(rt: &impl Abort, does: u8, returns: u8) -> ProcessAnswer {
    if does == b'!' {
        return ProcessAnswer::Failed(u32::from(returns));
    }
    ProcessAnswer::Ended {
        effect: effect(rt, does),
        outcome: maybe(rt, returns),
    }
}

/// The arguments that a text names.
fn args(rt: &impl Abort, alloc: Global, text: &str) -> Vec<Value> {
    let mut args = Vec::new(alloc);
    for word in text.split(' ') {
        let bytes = if word == "0" { "" } else { word };
        let arg = Value::new(bytes.as_bytes()).ok().expect(rt, "an argument");
        args.push(arg).expect(rt, "memory");
    }
    args
}

/// The ask at an entry. The loader may be asked with read-through, if there is no entry.
fn ask_at(rt: &impl Abort, entry: &str, read_through: bool) -> Asked {
    let &[name, initial] = entry.as_bytes() else {
        panic!(rt; "a key and a value: {entry}");
    };
    Asked {
        key: key(rt, name),
        initial: maybe(rt, initial),
        may_load: read_through && initial == b'-',
    }
}

/// Runs the processor once.
fn runs<R: Abort + Wait>(
    rt: &R,
    alloc: Global,
    hands: &mut Hands<Outside>,
    processor: &mut Box<dyn EntryProcessor + Send + Drop>,
    row: &Row,
    read_through: bool,
) {
    let (entry, words, want) = row;
    let &[loads, does, returns] = want.as_bytes() else {
        panic!(rt; "three bytes: {want}");
    };
    let ask = ask_at(rt, entry, read_through);
    let done = run_processor(rt, hands, processor, ask, &args(rt, alloc, words));
    let (load, process) = done.into_answers();
    is(rt, words, load, load_answer(rt, loads));
    is(rt, words, process, process_answer(rt, does, returns));
}

/// Runs the processor once for each row.
fn runs_all<R: Abort + Wait>(
    rt: &R,
    alloc: Global,
    hands: &mut Hands<Outside>,
    processor: &mut Box<dyn EntryProcessor + Send + Drop>,
    rows: &[Row],
    read_through: bool,
) {
    for row in rows {
        runs(rt, alloc, hands, processor, row, read_through);
    }
}

#[test]
fn sets_or_removes_what_has_changed(rt: HostRuntime) {
    let loader = boxed!(rt, Box<dyn CacheLoader + Send + Drop>, Loading { loader: Letters::new() });
    let mut processor =
        boxed!(rt, Box<dyn EntryProcessor + Send + Drop>, Updating { processor: Edit });
    let mut hands = Hands::new(Outside {
        loader: Some(loader),
        writer: None,
    });
    runs_all(&rt, rt.alloc(), &mut hands, &mut processor, ROWS, true);
    runs_all(&rt, rt.alloc(), &mut hands, &mut processor, ALONE, false);
}

#[test]
fn finds_nothing_without_a_loader(rt: HostRuntime) {
    let mut processor =
        boxed!(rt, Box<dyn EntryProcessor + Send + Drop>, Updating { processor: Edit });
    let mut hands = Hands::new(Outside {
        loader: None,
        writer: None,
    });
    let row = ("a-", "set 2", "-2-");
    runs(&rt, rt.alloc(), &mut hands, &mut processor, &row, true);
}
