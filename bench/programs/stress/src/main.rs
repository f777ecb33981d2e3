//! Random calls of four sessions, each on a thread of its own, on a cache that is too small for their keys, before loaders and
//! writers that fail now and then, for `bench/stress` to play.
#![tactic(auto)]

ghost use Rattle.std.specs.Prelude.{IfOk, All};
ghost use Rattle.jc_cache.specs.Sessions.{IsOf, MayCall};

mod ending;
mod playing;
mod unreliable;

use ending::{Outcome, close, outcome_of, own_steps, sessions_of};
use jc_cache::{
    Cache, CacheLoader, CacheOwner, CacheWriter, Config, EntryProcessor, Refusal, Session,
};
use jc_store::{Increment, SharedStore, Store};
use jc_types::HISTORY_MAX;
use playing::{Player, enlist, play_all};
use std::alloc::Global;
use std::process::ExitCode;
use std::sync::Wait;
use std::thread::Threads;
use unreliable::Unreliable;

/// How many sessions call.
const SESSIONS: u64 = 4;

/// Of how many calls of a loader one fails.
const LOADS: u32 = 97;

/// Of how many calls of a writer one fails.
const WRITES: u32 = 89;

/// The shape of the cache. Of each stripe's four keys, it keeps three.
const CONFIG: Config = Config {
    stripes: 2,
    capacity: 3,
    history: HISTORY_MAX,
    read_through: true,
    write_through: true,
};

/// What is asked for.
#[derive(Clone, Copy, PartialEq, Eq, Debug)]
struct Plan {
    /// The first session's seed. The others have the numbers after it.
    seed: u64,
    /// How many calls each session makes.
    calls: u32,
    /// How many places a history has in a cache that lives on. Without it the cache has one history of the greatest length.
    history: Option<usize>,
}

/// What the words of a command line ask for.
fn asked(words: &[String]) -> Option<Plan> {
    let (seed, calls, history) = match words {
        [_, seed, calls] => (seed, calls, None),
        [_, seed, calls, history] => (seed, calls, Some(history.parse().ok()?)),
        _ => return None,
    };
    Some(Plan {
        seed: seed.parse().ok()?,
        calls: calls.parse().ok()?,
        history,
    })
}

/// Who owns a cache as the plan has it.
fn open(alloc: Global, plan: &Plan) -> Result<CacheOwner, Refusal> {
    match plan.history {
        None => CacheOwner::new(alloc, &CONFIG),
        Some(history) => CacheOwner::living(alloc, &Config { history, ..CONFIG }),
    }
}

fn main(rt: HostRuntime) -> anyhow::Result<ExitCode> {
    let alloc = rt.alloc();
    let words: Vec<String> = std::env::args(&rt)?.collect(alloc)?;
    let Some(plan) = asked(&words) else {
        eprintln!(rt; "usage: bench_stress SEED CALLS [HISTORY]")?;
        return Ok(ExitCode::from(2));
    };
    let store = SharedStore::new(alloc, Store::of(alloc, &[])?)?;
    let mut owner = open(alloc, &plan)?;
    let mut players = Vec::new(alloc);
    for i in 0..SESSIONS {
        let loader: Box<dyn CacheLoader + Send + Drop> = Box::new(
            alloc,
            Unreliable::new(LOADS, store.loader(rt)?),
        )?;
        let writer: Box<dyn CacheWriter + Send + Drop> = Box::new(
            alloc,
            Unreliable::new(WRITES, store.writer(rt)?),
        )?;
        let increment: Box<dyn EntryProcessor + Send + Drop> = Box::new(alloc, Increment)?;
        let seed = plan.seed.wrapping_add(i);
        enlist(
            alloc,
            &mut owner,
            &mut players,
            loader,
            writer,
            increment,
            seed,
        )?;
    }
    let Outcome {
        legal,
        coherent,
        counted,
        steps,
        generations,
    } = play(&rt, alloc, &store, owner, players, plan.calls)?;
    println!(rt;
        "legal {legal} coherent {coherent} counted {counted} steps {steps} generations {generations}"
    )?;
    Ok(ExitCode::SUCCESS)
}

/// All players make so many calls each, side by side, and then the cache is closed.
fn play<R: Threads + Wait + Sync>(
    rt: &R,
    alloc: Global,
    store: &SharedStore,
    owner: CacheOwner,
    players: Vec<Player>,
    calls: u32,
) -> anyhow::Result<Outcome>
    requires { All (λ p. MayCall owner.cache p.session) players.items }
{
    let sessions = call_all(rt, alloc, owner.cache(), players, calls)?;
    let own = own_steps(alloc, &sessions)?;
    let stripes = close(alloc, owner, sessions)?;
    outcome_of(rt, alloc, &CONFIG, store, &stripes, &own)
}

/// All players make so many calls each, side by side. It gives their sessions.
fn call_all<R: Threads + Wait + Sync>(
    rt: &R,
    alloc: Global,
    cache: &Cache,
    players: Vec<Player>,
    calls: u32,
) -> anyhow::Result<Vec<Session>>
    requires { All (λ p. MayCall cache.now p.session) players.items }
    ensures { IfOk result (λ sessions. All (λ s. IsOf cache.now s) sessions.items) }
{
    let mut players = players;
    play_all(rt, cache, players.as_mut_slice(), calls);
    sessions_of(alloc, cache, players)
}
