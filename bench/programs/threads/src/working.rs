//! Workers, each with a session of its own, who call one cache on threads of their own.
ghost use Rattle.std.specs.Prelude.{◌≡◌, ◌≤◌, All, IfOk, OnOk};
ghost use Rattle.jc_cache.specs.Sessions.{MayCall};

use crate::keys::KEYS;
use jc_cache::{Cache, CacheLoader, CacheOwner, CacheWriter, Key, Session, Value};
use std::alloc::Global;
use std::sync::Wait;
use std::thread::{self, Threads};

/// One who calls the cache: a session, which nobody else has, and what became of its calls.
#[derive(Drop)]
pub struct Worker {
    /// Its session.
    session: Session,
    /// What its random keys are made from.
    seed: u64,
    /// How many of its calls were done.
    done: u32,
}

impl Worker {
    /// A worker who hasn't begun. The cache stays as it was, so whoever could call it still can.
    pub fn new(
        alloc: Global,
        owner: &mut CacheOwner,
        loader: Box<dyn CacheLoader + Send + Drop>,
        writer: Box<dyn CacheWriter + Send + Drop>,
        seed: u64,
    ) -> anyhow::Result<Worker>
        requires { Unit {0} }
        ensures cache { OnOk result (owner.new.cache ≡ owner.old.cache) }
        ensures may { IfOk result (λ w. MayCall owner.old.cache w.session) }
    {
        // The empty condition above has this proved for whatever loader and writer it is handed.
        match owner.session(alloc, Some(loader), Some(writer)) {
            Ok(session) => Ok(Worker {
                session,
                seed,
                done: 0,
            }),
            Err(fault) => Err(fault.refusal.into()),
        }
    }
}

/// Adds a worker to those who can call the cache. An `Err` says why there is no further one.
pub fn enlist(
    alloc: Global,
    owner: &mut CacheOwner,
    workers: &mut Vec<Worker>,
    loader: Box<dyn CacheLoader + Send + Drop>,
    writer: Box<dyn CacheWriter + Send + Drop>,
    seed: u64,
) -> anyhow::Result<()>
    requires { All (λ w. MayCall owner.old.cache w.session) workers.old.items }
    ensures { OnOk result (All (λ w. MayCall owner.new.cache w.session) workers.new.items) }
{
    let worker = Worker::new(alloc, owner, loader, writer, seed)?;
    workers.push(worker)?;
    Ok(())
}

/// All workers make so many calls each, every worker on a thread of its own.
pub fn work_all<R: Threads + Wait + Sync>(
    rt: &R,
    cache: &Cache,
    workers: &mut [Worker],
    keys: &[Key],
    value: &Value,
    calls: u32,
)
    requires { All (λ w. MayCall cache.now w.session) workers.old }
    ensures { All (λ w. MayCall cache.now w.session) workers.new }
{
    if workers.is_empty() {
        return;
    }
    let threads = workers.len();
    thread::for_each_mut(
        rt,
        workers,
        threads,
        &|_, worker: &mut Worker|
            requires { MayCall cache.now worker.old.session }
            ensures { MayCall cache.entry.now worker.new.session }
        { work(rt, cache, worker, keys, value, calls) },
    );
}

/// One worker's calls.
fn work<R: Wait>(
    rt: &R,
    cache: &Cache,
    worker: &mut Worker,
    keys: &[Key],
    value: &Value,
    calls: u32,
)
    requires { MayCall cache.now worker.old.session }
    ensures { MayCall cache.now worker.new.session }
{
    let seed = worker.seed;
    worker.done = call_each(rt, cache, &mut worker.session, keys, value, calls, seed);
}

/// So many calls at random keys: of ten, two `put` and eight `get`. The number of those that were done.
fn call_each<R: Wait>(
    rt: &R,
    cache: &Cache,
    session: &mut Session,
    keys: &[Key],
    value: &Value,
    calls: u32,
    seed: u64,
) -> u32
    requires { MayCall cache.now session.old }
    ensures may { MayCall cache.now session.new }
    ensures most { result ≤ calls }
{
    let mut done = 0;
    let mut next = seed;
    for i in 0..calls {
        next = random(next);
        let Some(key) = keys.get((next >> 33) as usize % KEYS) else {
            return done;
        };
        if call_once(rt, cache, session, key, value, i % 10 < 2) {
            done += 1;
        }
    }
    done
}

/// One call at a key, `put` or `get`. Whether it was done.
fn call_once<R: Wait>(
    rt: &R,
    cache: &Cache,
    session: &mut Session,
    key: &Key,
    value: &Value,
    puts: bool,
) -> bool
    requires { MayCall cache.now session.old }
    ensures { MayCall cache.now session.new }
{
    if puts {
        cache.put(rt, session, key, value).is_ok()
    } else {
        cache.get(rt, session, key).is_ok()
    }
}

/// The number after this one, of numbers whose upper bits look random (Knuth's linear congruential generator).
fn random(number: u64) -> u64 {
    number
        .wrapping_mul(6_364_136_223_846_793_005)
        .wrapping_add(1_442_695_040_888_963_407)
}

/// How many calls of all workers were done.
pub fn all_done(workers: &[Worker]) -> u32 {
    let mut done = 0u32;
    for worker in workers {
        done = done.saturating_add(worker.done);
    }
    done
}
