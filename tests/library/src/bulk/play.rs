//! All scenes, each with a cache of its own.
use super::closing::are_so;
use super::outside::Outside;
use super::random::{LIVING, RELIABLE, UNRELIABLE};
use super::scene::scene_of;
use super::side_by_side::{
    FAILED_FIRST, GIVEN_UP, HANDED_ON, JOINED, LOADED, MET, RESERVED, by_phases,
};
use super::stage::Stage;
use super::whole::{
    ANSWERED_TWICE, LEFT_IN_PART, LEFT_NORMALLY, LEFT_NOTHING, MANY, MANY_LIVING, NEARLY_FULL,
    PROCESSED, PROCESSED_IN_PART, TOUR,
};
use super::*;
use jc_cache::ClosedStripe;
use std::thread::Threads;

const SCENES: [&str; 20] = [
    TOUR,
    LEFT_IN_PART,
    LEFT_NOTHING,
    LEFT_NORMALLY,
    NEARLY_FULL,
    PROCESSED,
    PROCESSED_IN_PART,
    ANSWERED_TWICE,
    MANY,
    MANY_LIVING,
    LOADED,
    JOINED,
    FAILED_FIRST,
    HANDED_ON,
    MET,
    RESERVED,
    GIVEN_UP,
    RELIABLE,
    UNRELIABLE,
    LIVING,
];

/// Plays the lines of a scene, and ends its cache.
fn played<R: Abort + Wait + Threads + Sync>(
    rt: &R,
    alloc: Global,
    outside: &Outside,
    lines: &str,
    stage: Stage,
) -> Vec<ClosedStripe> {
    if lines.starts_with("putlate ") || lines.starts_with("withdraw ") {
        return by_phases(rt, alloc, outside, stage, lines.trim_end());
    }
    let mut stage = stage;
    stage.plays(rt, alloc, outside, lines);
    stage.close(rt, alloc)
}

#[test]
fn plays_each_scene(rt: HostRuntime) {
    let alloc = rt.alloc();
    for text in SCENES {
        let scene = scene_of(&rt, text);
        let outside = Outside::of(&rt, alloc, scene.before);
        let mut stage = Stage::new(&rt, alloc, &scene.shape, scene.lives);
        for place in 0..scene.sessions {
            let loader = boxed!(rt, Loader, outside.loader(rt, alloc, &scene, place));
            let writer = boxed!(rt, Writer, outside.writer(rt, alloc, &scene, place));
            stage.enter(&rt, alloc, loader, writer);
        }
        let stripes = played(&rt, alloc, &outside, scene.lines, stage);
        are_so(&rt, alloc, &outside, &stripes, scene.end);
    }
}
