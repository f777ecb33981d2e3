//! Players, each with a session of its own, who call one cache at random on threads of their own.
ghost use Rattle.std.specs.Prelude.{◌≡◌, ◌<◌, All, IfOk, OnOk};
ghost use Rattle.jc_cache.specs.Sessions.{MayCall};

use jc_cache::{Cache, CacheLoader, CacheOwner, CacheWriter, EntryProcessor, Key, Session, Value};
use std::alloc::Global;
use std::sync::Wait;
use std::thread::{self, Threads};

/// The most threads that players are spread over.
const THREADS: usize = 4;

/// One who calls the cache at random: always the same calls for a seed.
#[derive(Drop)]
pub struct Player {
    /// Its session.
    pub session: Session,
    /// Its entry processor.
    increment: Box<dyn EntryProcessor + Send + Drop>,
    /// What the next random number is made from.
    random: u64,
}

impl Player {
    /// A player who hasn't begun. The cache stays as it was, so whoever could call it still can.
    pub fn new(
        alloc: Global,
        owner: &mut CacheOwner,
        loader: Box<dyn CacheLoader + Send + Drop>,
        writer: Box<dyn CacheWriter + Send + Drop>,
        increment: Box<dyn EntryProcessor + Send + Drop>,
        seed: u64,
    ) -> anyhow::Result<Player>
        requires { Unit {0} }
        ensures cache { OnOk result (owner.new.cache ≡ owner.old.cache) }
        ensures may { IfOk result (λ p. MayCall owner.old.cache p.session) }
    {
        // The empty condition above has this proved for whatever loader, writer and processor it is handed.
        match owner.session(alloc, Some(loader), Some(writer)) {
            Ok(session) => Ok(Player {
                session,
                increment,
                random: seed,
            }),
            Err(fault) => Err(fault.refusal.into()),
        }
    }
}

/// Adds a player to those who can call the cache. An `Err` says why there is no further one.
pub fn enlist(
    alloc: Global,
    owner: &mut CacheOwner,
    players: &mut Vec<Player>,
    loader: Box<dyn CacheLoader + Send + Drop>,
    writer: Box<dyn CacheWriter + Send + Drop>,
    increment: Box<dyn EntryProcessor + Send + Drop>,
    seed: u64,
) -> anyhow::Result<()>
    requires { All (λ p. MayCall owner.old.cache p.session) players.old.items }
    ensures { OnOk result (All (λ p. MayCall owner.new.cache p.session) players.new.items) }
{
    let player = Player::new(alloc, owner, loader, writer, increment, seed)?;
    players.push(player)?;
    Ok(())
}

/// All players make so many calls each, every player on a thread of its own.
pub fn play_all<R: Threads + Wait + Sync>(rt: &R, cache: &Cache, players: &mut [Player], calls: u32)
    requires { All (λ p. MayCall cache.now p.session) players.old }
    ensures { All (λ p. MayCall cache.now p.session) players.new }
{
    thread::for_each_mut(
        rt,
        players,
        THREADS,
        &|_, player: &mut Player|
            requires { MayCall cache.now player.old.session }
            ensures { MayCall cache.entry.now player.new.session }
        { play(rt, cache, player, calls) },
    );
}

/// One player's calls.
fn play<R: Wait>(rt: &R, cache: &Cache, player: &mut Player, calls: u32)
    requires { MayCall cache.now player.old.session }
    ensures { MayCall cache.now player.new.session }
{
    for _ in 0..calls {
        call_once(rt, cache, player);
    }
}

/// A random call. What it returns is in the histories.
fn call_once<R: Wait>(rt: &R, cache: &Cache, player: &mut Player)
    requires { MayCall cache.now player.old.session }
    ensures { MayCall cache.now player.new.session }
{
    let Player {
        session,
        increment,
        random,
    } = player;
    let key = random_key(random);
    let value = random_value(random);
    let kind = next(random);
    let way = next(random);
    if kind < 3 {
        read(rt, cache, session, &key, way);
    } else if kind < 6 {
        put(rt, cache, session, &key, &value, way);
    } else {
        change(rt, cache, session, increment, &key, &value, way);
    }
}

/// The next random number below 8 (by Knuth's linear congruential generator).
fn next(random: &mut u64) -> u8
    ensures { result < 8 }
{
    *random = random
        .wrapping_mul(6_364_136_223_846_793_005)
        .wrapping_add(1_442_695_040_888_963_407);
    (*random >> 61) as u8
}

/// A letter: one of eight keys.
fn random_key(random: &mut u64) -> Key {
    match Key::new(&[b'a' + next(random)]) {
        Ok(key) => key,
        Err(_fault) => unreachable!(),
    }
}

/// A digit: one of eight values, all of which can be incremented.
fn random_value(random: &mut u64) -> Value {
    match Value::new(&[b'0' + next(random)]) {
        Ok(value) => value,
        Err(_fault) => unreachable!(),
    }
}

/// Looks at an entry, and mostly loads it if it is missing.
fn read<R: Wait>(rt: &R, cache: &Cache, session: &mut Session, key: &Key, way: u8)
    requires { MayCall cache.now session.old }
    ensures { MayCall cache.now session.new }
{
    match way {
        0 => {
            let _ = cache.contains_key(rt, session, key);
        }
        _ => {
            let _ = cache.get(rt, session, key);
        }
    }
}

/// Puts a value, in one of several ways.
fn put<R: Wait>(rt: &R, cache: &Cache, session: &mut Session, key: &Key, value: &Value, way: u8)
    requires { MayCall cache.now session.old }
    ensures { MayCall cache.now session.new }
{
    match way {
        0 => {
            let _ = cache.put_if_absent(rt, session, key, value);
        }
        1 => {
            let _ = cache.get_and_put(rt, session, key, value);
        }
        2 => {
            let _ = cache.replace(rt, session, key, value);
        }
        3 => {
            let _ = cache.get_and_replace(rt, session, key, value);
        }
        _ => {
            let _ = cache.put(rt, session, key, value);
        }
    }
}

/// Removes an entry, in one of several ways, or increments its value.
fn change<R: Wait>(
    rt: &R,
    cache: &Cache,
    session: &mut Session,
    increment: &mut Box<dyn EntryProcessor + Send + Drop>,
    key: &Key,
    value: &Value,
    way: u8,
)
    requires { MayCall cache.now session.old }
    ensures { MayCall cache.now session.new }
{
    match way {
        0 => {
            let _ = cache.remove(rt, session, key);
        }
        1 => {
            let _ = cache.remove_if(rt, session, key, value);
        }
        2 => {
            let _ = cache.get_and_remove(rt, session, key);
        }
        _ => {
            let _ = cache.invoke(rt, session, key, increment, &[]);
        }
    }
}
