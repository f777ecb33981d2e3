//! Workers on threads, each of which notes the pieces of a job that it was given.
use super::*;
use jc_pool::{Work, WorkWith, run_pieces, run_pieces_with};
use std::thread::Threads;

/// Does nothing but note which pieces it is given.
#[derive(Drop)]
struct Tally {
    done: Vec<usize>,
}

impl Work for Tally {
    type Job = ();

    ghost did = { ? };

    ghost job = { ? };

    ghost can_do = { ? };

    ghost does = { ? };

    fn piece(&mut self, piece: usize) {
        self.done.push_reserved(piece);
    }
}

/// The tool is a number, which goes up with each piece.
impl WorkWith<u64> for Tally {
    type Job = ();

    ghost did = { ? };

    ghost job = { ? };

    ghost can_do = { ? };

    ghost does = { ? };

    fn piece_with(&mut self, turns: &mut u64, piece: usize) {
        *turns = turns.saturating_add(1);
        self.done.push_reserved(piece);
    }
}

fn idle(rt: &impl Abort, alloc: Global, pieces: usize) -> Tally {
    Tally {
        done: Vec::with_capacity(alloc, pieces).expect(rt, "memory"),
    }
}

/// Creates the workers, each with room for all pieces.
fn team(rt: &impl Abort, alloc: Global, workers: usize, pieces: usize) -> Vec<Tally> {
    let mut team = Vec::new(alloc);
    while team.len() < workers {
        team.push(idle(rt, alloc, pieces)).expect(rt, "memory");
    }
    team
}

/// Runs the pieces, and looks whether each of them was done by one worker, once.
fn share<R: Abort + Threads + Sync>(rt: &R, alloc: Global, workers: usize, pieces: usize) {
    let mut team = team(rt, alloc, workers, pieces);
    run_pieces(alloc, rt, team.as_mut_slice(), pieces).expect(rt, "memory");
    for piece in 0..pieces {
        let doers = team.iter().filter(|w| w.done.contains(&piece)).count();
        assert_eq!(rt; doers, 1, "piece {piece}");
    }
    let done = team
        .iter()
        .fold(0usize, |n, w| n.saturating_add(w.done.len()));
    is(rt, done, pieces);
}

/// The same with a tool for each worker.
fn share_with_tools<R: Abort + Threads + Sync>(
    rt: &R,
    alloc: Global,
    workers: usize,
    pieces: usize,
) {
    let mut team = team(rt, alloc, workers, pieces);
    let mut turns = vec![in alloc; 0u64; workers].expect(rt, "memory");
    run_pieces_with(alloc, rt, team.as_mut_slice(), turns.as_mut_slice(), pieces).expect(
        rt, "memory",
    );
    let all = turns.iter().fold(0u64, |n, t| n.saturating_add(*t));
    is(rt, all, pieces as u64);
}

/// Several workers; one; nothing to do; more workers than pieces.
#[test]
fn each_piece_is_done_by_one_worker(rt: HostRuntime) {
    share(&rt, rt.alloc(), 3, 20);
    share(&rt, rt.alloc(), 1, 500);
    share(&rt, rt.alloc(), 4, 0);
    share(&rt, rt.alloc(), 9, 2);
}

#[test]
fn each_worker_is_lent_a_tool(rt: HostRuntime) {
    share_with_tools(&rt, rt.alloc(), 3, 20);
}
