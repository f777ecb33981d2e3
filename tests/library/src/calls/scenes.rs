//! Whole calls in front of a store, in texts. A text begins with the shape of its cache, which has one stripe if it says nothing else:
//!
//!     open 1 4 100 read write     stripes, capacity, history, and the options that are on
//!     store a=1 b=2               what the store has; without this line a=1
//!     with first waits plain      how the loader and the writer of the first session behave, or of all; without this line all
//!                                 are plain
//!
//! Then come its calls, by four sessions (`stage.rt`). After a line `reopen` the cache was to be closed without its last session, and
//! goes on. The last line may say what the steps of its first stripe are, in their order: of each the session, perhaps the number of
//! its call, the key and the reply, and perhaps what was loaded.
//!
//!     steps 0 a 1, 1#2 a 1 < -
//!
//! Of random calls it may say that the steps of each stripe are in the order of real time (`real_time.rt`):
//!
//!     steps in real time
use super::histories::are_steps;
use super::real_time::are_in_real_time;
use super::{
    beside, calls, closing, forgetting, histories, invoking, limits, meeting, outside, random,
    real_time, trying, *,
};
use jc_cache::ClosedStripe;
use std::thread::Threads;

const TEXTS: &[&str] = &[
    calls::DAY,
    calls::MISSING,
    calls::CACHED,
    calls::ALONE,
    calls::READS,
    calls::WRITES,
    limits::FULL,
    limits::LAST_NUMBER,
    invoking::NET_EFFECTS,
    invoking::FAILED,
    invoking::ALONE,
    invoking::SILENT,
    invoking::FAILED_LOADS,
    invoking::FIRST_INCREMENTS,
    trying::ALONE,
    trying::READS,
    trying::WRITES,
    outside::FAILED_LOADS,
    outside::FAILED_WRITES,
    outside::RISING,
    histories::LOADED,
    closing::REOPENED,
    meeting::MET,
    beside::HIT_DURING_LOAD,
    beside::ONE_LOAD,
    beside::PUT_WAITS,
    beside::HIT_DURING_WRITE,
    beside::LOAD_GIVEN_UP,
    beside::FAILING_LOAD_GIVEN_UP,
    beside::WRITE_GIVEN_UP,
    forgetting::ONE_KEY,
    forgetting::ALL_KEYS,
    forgetting::NOT_LOADED,
    forgetting::DURING_LOAD,
    forgetting::DURING_JOINED_LOAD,
    forgetting::ALL_DURING_LOAD,
    forgetting::FULL,
    forgetting::SWEPT,
    random::WELL,
    random::DOWN_AT_TIMES,
    real_time::ROUNDS,
];

/// How many sessions a scene has.
const SESSIONS: usize = 4;

/// What a text says.
#[derive(Clone, Copy)]
pub struct Scene<'a> {
    pub shape: Config,
    pub stored: &'a str,
    with: &'a str,
    pub lines: &'a str,
    steps: &'a str,
}

/// The shape that a line says.
pub fn shape_of(rt: &impl Abort, line: &str) -> Config {
    let (_open, line) = first_word(line);
    let (stripes, line) = first_word(line);
    let (capacity, line) = first_word(line);
    let (history, options) = first_word(line);
    Config {
        stripes: stripes.parse().ok().expect(rt, line),
        capacity: capacity.parse().ok().expect(rt, line),
        history: history.parse().ok().expect(rt, line),
        read_through: options.contains("read"),
        write_through: options.contains("write"),
    }
}

/// What a text's first line says after this word, if it begins with it, and the text after that line.
fn header<'a>(text: &'a str, word: &str) -> Option<(&'a str, &'a str)> {
    text.strip_prefix(word)?.split_once('\n')
}

impl<'a> Scene<'a> {
    pub fn of(rt: &impl Abort, text: &'a str) -> Self {
        let (open, rest) = text.split_once('\n').expect(rt, "a shape");
        let (stored, rest) = header(rest, "store ").unwrap_or(("a=1", rest));
        let (with, rest) = header(rest, "with ").unwrap_or(("all plain plain", rest));
        let (lines, steps) = rest.split_once("steps ").unwrap_or((rest, ""));
        Scene {
            shape: shape_of(rt, open),
            stored,
            with,
            lines,
            steps: steps.trim_end(),
        }
    }

    /// How the loader and the writer of the session at this place behave.
    fn manners(&self, rt: &impl Abort, place: usize) -> Manners {
        let (who, words) = first_word(self.with);
        if who == "first" && place > 0 {
            return Manners::PLAIN;
        }
        Manners::of(rt, words)
    }
}

/// Makes the calls of a scene. If it says so, the cache is to be closed without its last session between them.
fn played<R: Abort + Wait + Threads + Sync>(
    rt: &R,
    alloc: Global,
    desk: &Desk,
    stage: Stage,
    lines: &str,
) -> Stage {
    let mut stage = stage;
    let Some((before, after)) = lines.split_once("reopen\n") else {
        stage.plays(rt, alloc, desk, lines);
        return stage;
    };
    stage.plays(rt, alloc, desk, before);
    let mut stage = stage.close_without_last(rt, alloc);
    stage.plays(rt, alloc, desk, after);
    stage
}

/// What is cached is what the store has.
fn are_coherent<R: Abort + Wait>(rt: &R, alloc: Global, desk: &Desk, stripes: &[ClosedStripe]) {
    for stripe in stripes {
        desk.has_entries_of(rt, alloc, stripe);
    }
}

/// Plays a scene on its stage, and ends the cache. Before a store that is read and written through, what is cached is the store's.
fn plays<R: Abort + Wait + Threads + Sync>(
    rt: &R,
    alloc: Global,
    desk: &Desk,
    stage: Stage,
    scene: &Scene,
) {
    let stage = played(rt, alloc, desk, stage, scene.lines);
    let stripes = stage.close(rt, alloc);
    is(rt, stripes.len(), scene.shape.stripes);
    if scene.shape.read_through && scene.shape.write_through {
        are_coherent(rt, alloc, desk, &stripes);
    }
    match scene.steps {
        "" => {}
        "in real time" => are_in_real_time(rt, alloc, &desk.times, &stripes),
        steps => are_steps(rt, alloc, stripes.first().expect(rt, "a stripe"), steps),
    }
}

#[test]
fn plays_before_a_store(rt: HostRuntime) {
    let alloc = rt.alloc();
    for text in TEXTS {
        let scene = Scene::of(&rt, text);
        let desk = Desk::of(&rt, alloc, scene.stored);
        let mut stage = Stage::new(&rt, alloc, &scene.shape);
        for place in 0..SESSIONS {
            enter!(rt, stage, desk, scene.manners(&rt, place));
        }
        plays(&rt, alloc, &desk, stage, &scene);
    }
}
