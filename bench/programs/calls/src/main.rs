//! Makes so many whole calls of one kind on a cache, one after another, for `bench/calls` to time.
#![tactic(auto)]

ghost use Rattle.std.specs.Prelude.{◌≡◌, length};
ghost use Rattle.jc_cache.specs.Sessions.{MayCall};
ghost use Rattle.bench_calls.specs.declared.loops.TheConstants.{KEYS};

mod bulk;
mod loops;
mod phases;
mod set_to;

use bulk::{first_entries, first_keys, get_all_each, put_all_each};
use jc_cache::{Cache, CacheOwner, Session};
use jc_model::Op;
use jc_mutentry::EntryProcessor;
use jc_outside::{CacheLoader, CacheWriter};
use jc_store::{SharedStore, Store};
use jc_types::{Config, HISTORY_MAX, Key, Refusal, STRIPES_MAX, Value};
use loops::{KEYS, get_each, invoke_each, keys_in_turn, mix_each, put_each};
use phases::{begin_all, stripes_alone};
use set_to::SetTo;
use std::alloc::{AllocError, Global};
use std::process::ExitCode;
use std::sync::Wait;

/// What the calls are.
#[derive(Clone, Copy, PartialEq, Eq, Debug)]
enum Kind {
    /// The first phase of `get` of a key that is cached, on stripes alone, with both options off.
    Begin,
    /// `get` of a key that is cached, with both options off.
    Hit,
    /// Of ten calls two `put`, and eight `get` of a key that is cached, with both options off.
    Mixed,
    /// `get` of a key that neither the cache nor the store has, with read-through on.
    Miss,
    /// `put` with write-through on.
    Put,
    /// `invoke` of a processor that gets the value and sets another, with write-through on.
    Invoke,
    /// `put_all` of 64 keys, one of each stripe, with write-through on.
    PutAll,
    /// `get_all` of 64 keys that are cached, one of each stripe, with both options off.
    GetAll,
    /// `get_all` of 64 keys that neither the cache nor the store has, one of each stripe, with read-through on.
    MissAll,
}

/// The shape of a cache that lives on.
#[derive(Clone, Copy, PartialEq, Eq, Debug)]
struct Living {
    /// How many stripes it has.
    stripes: usize,
    /// How many places the history of a stripe has.
    history: usize,
}

/// What is asked for.
#[derive(Clone, Copy, PartialEq, Eq, Debug)]
struct Plan {
    /// What the calls are.
    kind: Kind,
    /// How many there are.
    calls: u32,
    /// The cache that lives on. Without it the cache keeps every step, with as many stripes and places as there are at most.
    living: Option<Living>,
}

/// What the words of a command line ask for.
fn asked(words: &[String]) -> Option<Plan> {
    let (kind, calls, living) = match words {
        [_, kind, calls] => (kind, calls, None),
        [_, kind, calls, stripes, history] => {
            let stripes = stripes.parse().ok()?;
            let history = history.parse().ok()?;
            (kind, calls, Some(Living { stripes, history }))
        }
        _ => return None,
    };
    Some(Plan {
        kind: kind_named(kind.as_str())?,
        calls: calls.parse().ok()?,
        living,
    })
}

/// The kind that has this name.
fn kind_named(name: &str) -> Option<Kind> {
    Some(match name {
        "begin" => Kind::Begin,
        "hit" => Kind::Hit,
        "mixed" => Kind::Mixed,
        "miss" => Kind::Miss,
        "put" => Kind::Put,
        "invoke" => Kind::Invoke,
        "put_all" => Kind::PutAll,
        "get_all" => Kind::GetAll,
        "miss_all" => Kind::MissAll,
        _ => return None,
    })
}

/// Whether the calls are to be written through.
fn is_written(kind: Kind) -> bool {
    match kind {
        Kind::Put | Kind::Invoke | Kind::PutAll => true,
        Kind::Begin | Kind::Hit | Kind::Mixed | Kind::Miss => false,
        Kind::GetAll | Kind::MissAll => false,
    }
}

/// Whether the cache is to read through.
fn is_read(kind: Kind) -> bool {
    match kind {
        Kind::Miss | Kind::MissAll => true,
        Kind::Begin | Kind::Hit | Kind::Mixed | Kind::Put | Kind::Invoke => false,
        Kind::PutAll | Kind::GetAll => false,
    }
}

/// Whether a call names many keys.
fn is_bulk(kind: Kind) -> bool {
    match kind {
        Kind::PutAll | Kind::GetAll | Kind::MissAll => true,
        Kind::Begin | Kind::Hit | Kind::Mixed | Kind::Miss | Kind::Put | Kind::Invoke => false,
    }
}

fn main(rt: HostRuntime) -> anyhow::Result<ExitCode> {
    let alloc = rt.alloc();
    let words: Vec<String> = std::env::args(&rt)?.collect(alloc)?;
    let Some(plan) = asked(&words) else {
        eprintln!(rt;
            "usage: bench_calls begin|hit|mixed|miss|put|invoke|put_all|get_all|miss_all CALLS [STRIPES HISTORY]"
        )?;
        return Ok(ExitCode::from(2));
    };
    let done = match plan.kind {
        Kind::Begin => first_phases(alloc, plan.calls)?,
        Kind::Hit
        | Kind::Mixed
        | Kind::Miss
        | Kind::Put
        | Kind::Invoke
        | Kind::PutAll
        | Kind::GetAll
        | Kind::MissAll => {
            let store = SharedStore::new(alloc, Store::of(alloc, &[])?)?;
            let loader: Box<dyn CacheLoader + Send + Drop> = Box::new(alloc, store.loader(rt)?)?;
            let writer: Box<dyn CacheWriter + Send + Drop> = Box::new(alloc, store.writer(rt)?)?;
            whole_calls(&rt, alloc, &plan, loader, writer)?
        }
    };
    println!(rt; "{done}")?;
    Ok(ExitCode::SUCCESS)
}

/// First phases of `get` on stripes alone. How many of them returned a value.
fn first_phases(alloc: Global, calls: u32) -> anyhow::Result<u32> {
    let keys = keys_in_turn(alloc)?;
    let mut stripes = stripes_alone(alloc)?;
    let value = Value::new(b"a 16-byte value.")?;
    begin_all(&mut stripes, &keys, &Op::Put(value), 0, KEYS as u32);
    Ok(begin_all(&mut stripes, &keys, &Op::Get, KEYS as u32, calls))
}

/// Who owns a cache as the plan has it.
fn open(alloc: Global, plan: &Plan) -> Result<CacheOwner, Refusal> {
    let config = Config {
        stripes: STRIPES_MAX,
        capacity: KEYS,
        history: HISTORY_MAX,
        read_through: is_read(plan.kind),
        write_through: is_written(plan.kind),
    };
    let Some(Living { stripes, history }) = plan.living else {
        return CacheOwner::new(alloc, &config);
    };
    CacheOwner::living(
        alloc,
        &Config {
            stripes,
            history,
            ..config
        },
    )
}

/// Whole calls on a cache. How many of them did as their kind says.
fn whole_calls<R: Wait>(
    rt: &R,
    alloc: Global,
    plan: &Plan,
    loader: Box<dyn CacheLoader + Send + Drop>,
    writer: Box<dyn CacheWriter + Send + Drop>,
) -> anyhow::Result<u32> {
    let keys = keys_in_turn(alloc)?;
    let value = Value::new(b"a 16-byte value.")?;
    let mut processor: Box<dyn EntryProcessor + Send + Drop> = Box::new(alloc, SetTo { value })?;
    let kind = plan.kind;
    let calls = plan.calls;
    let mut owner = open(alloc, plan)?;
    let mut session = match owner.session(alloc, Some(loader), Some(writer)) {
        Ok(session) => session,
        Err(fault) => return Err(fault.refusal.into()),
    };
    let cache = owner.cache();
    if is_bulk(kind) {
        return Ok(bulk_on(rt, alloc, cache, &mut session, &keys, &value, kind, calls)?);
    }
    Ok(calls_on(
        rt,
        cache,
        &mut session,
        &keys,
        &value,
        &mut processor,
        kind,
        calls,
    ))
}

/// So many calls with many keys. How many of them did as their kind says.
fn bulk_on<R: Wait>(
    rt: &R,
    alloc: Global,
    cache: &Cache,
    session: &mut Session,
    keys: &[Key],
    value: &Value,
    kind: Kind,
    calls: u32,
) -> Result<u32, AllocError>
    requires keys { length keys.now ≡ KEYS }
    requires may { MayCall cache.now session.old }
{
    let entries = first_entries(alloc, keys, value)?;
    if kind == Kind::PutAll {
        return Ok(put_all_each(alloc, rt, cache, session, &entries, calls));
    }
    let first = first_keys(alloc, keys)?;
    if kind == Kind::MissAll {
        return Ok(get_all_each(alloc, rt, cache, session, &first, 0, calls));
    }
    put_all_each(alloc, rt, cache, session, &entries, 1);
    let all = first.len();
    Ok(get_all_each(alloc, rt, cache, session, &first, all, calls))
}

/// So many calls of a kind on a cache, by one session. How many of them did as their kind says.
fn calls_on<R: Wait>(
    rt: &R,
    cache: &Cache,
    session: &mut Session,
    keys: &[Key],
    value: &Value,
    processor: &mut Box<dyn EntryProcessor + Send + Drop>,
    kind: Kind,
    calls: u32,
) -> u32
    requires keys { length keys.now ≡ KEYS }
    requires may { MayCall cache.now session.old }
{
    match kind {
        Kind::Hit => hits_on(rt, cache, session, keys, value, calls),
        Kind::Mixed => mixed_on(rt, cache, session, keys, value, calls),
        Kind::Miss => get_each(rt, cache, session, keys, calls, false),
        Kind::Put | Kind::Begin | Kind::PutAll | Kind::GetAll | Kind::MissAll => put_each(
            rt, cache, session, keys, value, calls,
        ),
        Kind::Invoke => invoke_each(rt, cache, session, keys, processor, calls),
    }
}

/// Puts each key, and then so many calls of `get`. How many of them found a value.
fn hits_on<R: Wait>(
    rt: &R,
    cache: &Cache,
    session: &mut Session,
    keys: &[Key],
    value: &Value,
    calls: u32,
) -> u32
    requires keys { length keys.now ≡ KEYS }
    requires may { MayCall cache.now session.old }
{
    put_each(rt, cache, session, keys, value, KEYS as u32);
    get_each(rt, cache, session, keys, calls, true)
}

/// Puts each key, and then makes so many calls, of ten two `put` and eight `get`. How many of them put, or found a value.
fn mixed_on<R: Wait>(
    rt: &R,
    cache: &Cache,
    session: &mut Session,
    keys: &[Key],
    value: &Value,
    calls: u32,
) -> u32
    requires keys { length keys.now ≡ KEYS }
    requires may { MayCall cache.now session.old }
{
    put_each(rt, cache, session, keys, value, KEYS as u32);
    mix_each(rt, cache, session, keys, value, calls)
}
