//! Makes calls of workers on one cache, each worker on a thread of its own, for `bench/threads` to time.
#![tactic(auto)]

ghost use Rattle.std.specs.Prelude.{All};
ghost use Rattle.jc_cache.specs.Sessions.{MayCall};

mod keys;
mod working;

use jc_cache::{CacheLoader, CacheOwner, CacheWriter, Config, Refusal, Value};
use jc_store::{SharedStore, Store};
use jc_types::HISTORY_MAX;
use keys::{KEYS, all_keys};
use std::alloc::Global;
use std::process::ExitCode;
use std::sync::Wait;
use std::thread::Threads;
use working::{Worker, all_done, enlist, work_all};

/// What is asked for.
#[derive(Clone, Copy, PartialEq, Eq, Debug)]
struct Plan {
    /// How many workers call, each on a thread of its own.
    workers: usize,
    /// How many stripes the cache has.
    stripes: usize,
    /// How many calls each worker makes.
    calls: u32,
    /// How many places a history has in a cache that lives on. Without it the cache keeps every step.
    history: Option<usize>,
}

/// What the words of a command line ask for.
fn asked(words: &[String]) -> Option<Plan> {
    let (workers, stripes, calls, history) = match words {
        [_, workers, stripes, calls] => (workers, stripes, calls, None),
        [_, workers, stripes, calls, history] => {
            (workers, stripes, calls, Some(history.parse().ok()?))
        }
        _ => return None,
    };
    Some(Plan {
        workers: workers.parse().ok()?,
        stripes: stripes.parse().ok()?,
        calls: calls.parse().ok()?,
        history,
    })
}

/// Who owns a cache as the plan has it, with both options off. Each stripe has room for all keys.
fn open(alloc: Global, plan: &Plan) -> Result<CacheOwner, Refusal> {
    let config = Config {
        stripes: plan.stripes,
        capacity: KEYS,
        history: HISTORY_MAX,
        read_through: false,
        write_through: false,
    };
    match plan.history {
        None => CacheOwner::new(alloc, &config),
        Some(history) => CacheOwner::living(alloc, &Config { history, ..config }),
    }
}

fn main(rt: HostRuntime) -> anyhow::Result<ExitCode> {
    let alloc = rt.alloc();
    let words: Vec<String> = std::env::args(&rt)?.collect(alloc)?;
    let Some(plan) = asked(&words) else {
        eprintln!(rt; "usage: bench_threads WORKERS STRIPES CALLS [HISTORY]")?;
        return Ok(ExitCode::from(2));
    };
    let store = SharedStore::new(alloc, Store::of(alloc, &[])?)?;
    let mut owner = open(alloc, &plan)?;
    let mut workers = Vec::new(alloc);
    for seed in 0..plan.workers {
        let loader: Box<dyn CacheLoader + Send + Drop> = Box::new(alloc, store.loader(rt)?)?;
        let writer: Box<dyn CacheWriter + Send + Drop> = Box::new(alloc, store.writer(rt)?)?;
        enlist(alloc, &mut owner, &mut workers, loader, writer, seed as u64)?;
    }
    let done = calls_done(&rt, alloc, owner, workers, plan.calls)?;
    println!(rt; "{done}")?;
    Ok(ExitCode::SUCCESS)
}

/// All workers make so many calls each, side by side. How many of them all were done.
fn calls_done<R: Threads + Wait + Sync>(
    rt: &R,
    alloc: Global,
    owner: CacheOwner,
    workers: Vec<Worker>,
    calls: u32,
) -> anyhow::Result<u32>
    requires { All (λ w. MayCall owner.cache w.session) workers.items }
{
    let keys = all_keys(alloc)?;
    let value = Value::new(b"a 16-byte value.")?;
    let mut workers = workers;
    work_all(
        rt,
        owner.cache(),
        workers.as_mut_slice(),
        &keys,
        &value,
        calls,
    );
    Ok(all_done(&workers))
}
