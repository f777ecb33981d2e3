//! The loops of calls, and the keys that they name.
ghost use Rattle.std.specs.Prelude.{◌≡◌, ◌≤◌, length, IfOk};
ghost use Rattle.jc_cache.specs.Sessions.{MayCall};
ghost use Rattle.bench_calls.specs.declared.loops.TheConstants.{KEYS};

use jc_cache::{Cache, Session};
use jc_mutentry::EntryProcessor;
use jc_types::{Key, Value};
use std::alloc::Global;
use std::sync::Wait;

/// How many keys the calls name, in turn.
pub const KEYS: usize = 1024;

/// Keys of 16 bytes. Each stripe of 64 has the same number of them, and neighbours are of different stripes.
pub fn keys_in_turn(alloc: Global) -> anyhow::Result<Vec<Key>>
    ensures { IfOk result (λ keys. length keys.items ≡ KEYS) }
{
    let mut keys = Vec::with_capacity(alloc, KEYS)?;
    for i in 0..KEYS {
        let mut bytes = *b"a key 16 bytes..";
        bytes[14] = (i / 64) as u8;
        bytes[15] = (i % 64) as u8;
        keys.push_reserved(Key::new(&bytes)?);
    }
    Ok(keys)
}

/// So many calls `get`, of the keys in turn. The number of those that returned a value, or none if `found` is false.
pub fn get_each<R: Wait>(
    rt: &R,
    cache: &Cache,
    session: &mut Session,
    keys: &[Key],
    calls: u32,
    found: bool,
) -> u32
    requires keys { length keys.now ≡ KEYS }
    requires may { MayCall cache.now session.old }
    ensures may { MayCall cache.now session.new }
    ensures most { result ≤ calls }
{
    let mut done = 0;
    for i in 0..calls {
        match cache.get(rt, session, &keys[i as usize % KEYS]) {
            Ok(value) if value.is_some() == found => done += 1,
            Ok(_) | Err(_) => {}
        }
    }
    done
}

/// So many calls `put`, of the keys in turn. The number of those that were done.
pub fn put_each<R: Wait>(
    rt: &R,
    cache: &Cache,
    session: &mut Session,
    keys: &[Key],
    value: &Value,
    calls: u32,
) -> u32
    requires keys { length keys.now ≡ KEYS }
    requires may { MayCall cache.now session.old }
    ensures may { MayCall cache.now session.new }
    ensures most { result ≤ calls }
{
    let mut done = 0;
    for i in 0..calls {
        if cache
            .put(rt, session, &keys[i as usize % KEYS], value)
            .is_ok()
        {
            done += 1;
        }
    }
    done
}

/// So many calls, of the keys in turn: of ten, two `put` and eight `get`. The number of those that were put, or returned a value.
pub fn mix_each<R: Wait>(
    rt: &R,
    cache: &Cache,
    session: &mut Session,
    keys: &[Key],
    value: &Value,
    calls: u32,
) -> u32
    requires keys { length keys.now ≡ KEYS }
    requires may { MayCall cache.now session.old }
    ensures may { MayCall cache.now session.new }
    ensures most { result ≤ calls }
{
    let mut done = 0;
    for i in 0..calls {
        let key = &keys[i as usize % KEYS];
        if put_or_get(rt, cache, session, key, value, i % 10 < 2) {
            done += 1;
        }
    }
    done
}

/// One call at a key, `put` or `get`. Whether it was put, or returned a value.
fn put_or_get<R: Wait>(
    rt: &R,
    cache: &Cache,
    session: &mut Session,
    key: &Key,
    value: &Value,
    puts: bool,
) -> bool
    requires { MayCall cache.now session.old }
    ensures { MayCall cache.now session.new }
{
    if puts {
        return cache.put(rt, session, key, value).is_ok();
    }
    match cache.get(rt, session, key) {
        Ok(found) => found.is_some(),
        Err(_) => false,
    }
}

/// So many calls `invoke`, of the keys in turn. The number of those that were done.
pub fn invoke_each<R: Wait>(
    rt: &R,
    cache: &Cache,
    session: &mut Session,
    keys: &[Key],
    processor: &mut Box<dyn EntryProcessor + Send + Drop>,
    calls: u32,
) -> u32
    requires keys { length keys.now ≡ KEYS }
    requires may { MayCall cache.now session.old }
    ensures may { MayCall cache.now session.new }
    ensures most { result ≤ calls }
{
    let mut done = 0;
    for i in 0..calls {
        let key = &keys[i as usize % KEYS];
        if cache.invoke(rt, session, key, processor, &[]).is_ok() {
            done += 1;
        }
    }
    done
}
