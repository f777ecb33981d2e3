//! The end of the cache, and what became of the calls.
ghost use Rattle.std.specs.Prelude.{IfOk, All};
ghost use Rattle.jc_cache.specs.Sessions.{IsOf, MayCall};

use crate::playing::Player;
use jc_cache::{Cache, CacheOwner, ClosedStripe, Config, Event, Session};
use jc_model::legal;
use jc_store::SharedStore;
use std::alloc::Global;
use std::sync::Wait;

/// How many steps a session has made, as it counts them itself.
#[derive(Clone, Copy, PartialEq, Eq, Debug)]
pub struct OwnSteps {
    /// The session's number.
    pub session: u32,
    /// How many steps.
    pub steps: u64,
}

/// What became of the calls of all players.
#[derive(Clone, Copy, PartialEq, Eq, Debug)]
pub struct Outcome {
    /// Whether the slow checker finds each stripe's history legal. What a generation opened with that has others before it isn't known.
    pub legal: bool,
    /// Whether the store has each value that is cached.
    pub coherent: bool,
    /// Whether the histories have as many steps of each session as it counts, if no generation has ended.
    pub counted: bool,
    /// How many steps all sessions have made together.
    pub steps: u64,
    /// How many generations have ended, of all stripes together.
    pub generations: u64,
}

/// How many steps each session has made.
pub fn own_steps(alloc: Global, sessions: &[Session]) -> anyhow::Result<Vec<OwnSteps>> {
    let mut own = Vec::new(alloc);
    for session in sessions {
        own.push(OwnSteps {
            session: session.caller().session,
            steps: session.own(),
        })?;
    }
    Ok(own)
}

/// The sessions of all players: a cache is closed with all of its sessions.
pub fn sessions_of(
    alloc: Global,
    cache: &Cache,
    players: Vec<Player>,
) -> anyhow::Result<Vec<Session>>
    requires { All (λ p. MayCall cache.now p.session) players.items }
    ensures { IfOk result (λ sessions. All (λ s. IsOf cache.now s) sessions.items) }
{
    let mut players = players;
    let mut sessions = Vec::new(alloc);
    while let Some(player) = players.pop() {
        sessions.push(session_of(cache, player))?;
    }
    Ok(sessions)
}

/// The session of a player who has no call under way.
fn session_of(_cache: &Cache, player: Player) -> Session
    requires { MayCall _cache.now player.session }
    ensures { IsOf _cache.now result }
{
    player.session
}

/// Closes the cache with all of its sessions. An `Err` says why it can't be closed.
pub fn close(
    alloc: Global,
    owner: CacheOwner,
    sessions: Vec<Session>,
) -> anyhow::Result<Vec<ClosedStripe>>
    requires { All (λ s. IsOf owner.cache s) sessions.items }
{
    match owner.close(alloc, sessions) {
        Ok(closed) => Ok(closed.stripes),
        Err(fault) => Err(fault.refusal.into()),
    }
}

/// What became of the calls, by the stripes of a closed cache of this shape, the store, and the sessions' own counts.
pub fn outcome_of<R: Wait>(
    rt: &R,
    alloc: Global,
    config: &Config,
    store: &SharedStore,
    stripes: &[ClosedStripe],
    own: &[OwnSteps],
) -> anyhow::Result<Outcome> {
    let mut outcome = Outcome {
        legal: true,
        coherent: true,
        counted: true,
        steps: 0,
        generations: 0,
    };
    for stripe in stripes {
        let ended = stripe.generations_ended();
        outcome.legal &= ended > 0 || is_legal(alloc, config, stripe)?;
        outcome.coherent &= is_coherent(rt, alloc, store, stripe)?;
        outcome.generations = outcome.generations.saturating_add(ended);
    }
    for one in own {
        let recorded = steps_of(alloc, stripes, one.session)?;
        outcome.counted &= outcome.generations > 0 || recorded == one.steps;
        outcome.steps = outcome.steps.saturating_add(one.steps);
    }
    Ok(outcome)
}

/// Whether the slow checker, which makes each step again, finds a stripe's history legal.
fn is_legal(alloc: Global, config: &Config, stripe: &ClosedStripe) -> anyhow::Result<bool> {
    let mut events = Vec::new(alloc);
    stripe.append_events(&mut events)?;
    Ok(legal(alloc, config, &[], &events)?)
}

/// Whether the store has each value that a stripe has cached.
fn is_coherent<R: Wait>(
    rt: &R,
    alloc: Global,
    store: &SharedStore,
    stripe: &ClosedStripe,
) -> anyhow::Result<bool> {
    let mut entries = Vec::new(alloc);
    stripe.append_entries(&mut entries)?;
    let mut coherent = true;
    for (key, value) in &entries {
        coherent &= store.read(rt, key) == Some(*value);
    }
    Ok(coherent)
}

/// How many steps of a session the histories of all stripes have.
fn steps_of(alloc: Global, stripes: &[ClosedStripe], session: u32) -> anyhow::Result<u64> {
    let mut steps = 0u64;
    for stripe in stripes {
        steps = steps.saturating_add(steps_in(alloc, stripe, session)?);
    }
    Ok(steps)
}

/// How many steps of a session a stripe's history has.
fn steps_in(alloc: Global, stripe: &ClosedStripe, session: u32) -> anyhow::Result<u64> {
    let mut events = Vec::new(alloc);
    stripe.append_events(&mut events)?;
    let mut steps = 0u64;
    for event in &events {
        if is_step_of(event, session) {
            steps = steps.saturating_add(1);
        }
    }
    Ok(steps)
}

/// Whether an event is a step of a session.
fn is_step_of(event: &Event, session: u32) -> bool {
    match event {
        Event::Step { caller, .. } => caller.session == session,
        Event::Evict { .. } => false,
    }
}
