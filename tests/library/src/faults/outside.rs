//! A store, and what its loaders and writers have failed at.
use super::calls::Ended;
use super::noted::{Log, Noted, Watched};
use super::trial::{Fault, LAST, Trial, load_code};
use super::words::Line;
use super::*;
use crate::common::words::pair_list;
use crate::doubles::{ScheduledLoader, ScheduledWriter};
use indexmap::{IndexMap, IndexSet};
use jc_store::{SharedStore, Store, StoreLoader, StoreWriter};

/// What the store has at first.
const STORED: &str = "a=1 c=3 k01=1 k07=7 k12=12 k17=17 k23=23 k24=24 k31=31";

/// A store that some sessions share, what the loader and the writer of each note, and which fault they have.
#[derive(Drop)]
pub struct Outside {
    store: SharedStore,
    logs: Vec<Log>,
    trial: Trial,
}

impl Outside {
    pub fn new(rt: &impl Abort, alloc: Global, trial: &Trial) -> Self {
        let store = Store::of(alloc, &pair_list(rt, alloc, STORED)).expect(rt, "memory");
        Outside {
            store: SharedStore::new(alloc, store).expect(rt, "memory"),
            logs: logs(rt, alloc, trial.sessions),
            trial: *trial,
        }
    }

    fn log(&self, rt: &impl Abort, who: usize) -> &Log {
        self.logs.get(who).expect(rt, "a log")
    }

    /// The loader of the session at this place.
    pub fn loader<R: Abort + Wait + Drop + Copy>(
        &self,
        rt: R,
        alloc: Global,
        who: usize,
    ) -> Watched<ScheduledLoader<StoreLoader<R>>, R> {
        let loader = self.store.loader(rt).expect(&rt, "memory");
        let fault = self.trial.load_fault(&rt, alloc, who);
        let loader = ScheduledLoader::new(loader, self.trial.load_call(), fault);
        self.log(&rt, who).watching(rt, alloc, loader)
    }

    /// The writer of the session at this place.
    pub fn writer<R: Abort + Wait + Drop + Copy>(
        &self,
        rt: R,
        alloc: Global,
        who: usize,
    ) -> Watched<ScheduledWriter<StoreWriter<R>>, R> {
        let writer = self.store.writer(rt).expect(&rt, "memory");
        let fault = self.trial.write_fault(&rt, alloc);
        let writer = ScheduledWriter::new(writer, self.trial.write_call(), fault);
        self.log(&rt, who).watching(rt, alloc, writer)
    }

    /// A call of the session at this place has ended so. It failed where the session's loader or its writer has since its last call.
    pub fn explains<R: Abort + Wait>(
        &self,
        rt: &R,
        alloc: Global,
        who: usize,
        line: &Line,
        ended: &Ended,
    ) {
        let noted = self.log(rt, who).take(rt, alloc);
        if line.word != "invokeall" {
            self.has_cause(rt, who, ended, noted.cause);
        }
        fails_where_noted(rt, &noted.failed, &ended.failed);
        self.was_noted(rt, who, &ended.failed, &noted.failed);
        are_in_order(rt, &ended.failed, &line.keys);
    }

    /// Whether a session has met this in a load that it has joined: another session's loader has failed, with its own code.
    fn is_of_joined_load(&self, who: usize, why: Refusal) -> bool {
        for other in 0..self.logs.len() {
            if other != who && why == Refusal::LoaderFailed(load_code(other)) {
                return true;
            }
        }
        false
    }

    /// The cause is the first fault that was noted, or it was met in a load that was joined, where a key has failed with it.
    fn has_cause(&self, rt: &impl Abort, who: usize, ended: &Ended, noted: Option<Refusal>) {
        if let Some(cause) = ended.cause {
            if self.is_of_joined_load(who, cause) {
                assert!(rt; has_failed_with(&ended.failed, cause));
                return;
            }
        }
        is(rt, ended.cause, noted);
    }

    /// Each key that has failed was noted, or its load was joined.
    fn was_noted(
        &self,
        rt: &impl Abort,
        who: usize,
        failed: &IndexMap<Key, Refusal>,
        noted: &IndexMap<Key, Refusal>,
    ) {
        for (key, why) in failed {
            if !self.is_of_joined_load(who, *why) {
                is(rt, noted.get(key).copied(), Some(*why));
            }
        }
    }

    /// A call of all sessions together has ended so.
    pub fn explains_all<R: Abort + Wait>(
        &self,
        rt: &R,
        alloc: Global,
        keys: &IndexSet<Key>,
        ended: &Ended,
    ) {
        let mut failures = 0usize;
        for log in &self.logs {
            let noted = log.take(rt, alloc);
            failures = failures.saturating_add(noted.failed.len());
            fails_where_noted(rt, &noted.failed, &ended.failed);
        }
        is(rt, ended.failed.len(), failures);
        are_in_order(rt, &ended.failed, keys);
        is(rt, ended.cause, first_of(&ended.failed));
    }

    /// Whether a loader or a writer was called so often that it has had its fault.
    pub fn has_met<R: Abort + Wait>(&self, rt: &R, alloc: Global) -> bool {
        let mut met = false;
        for log in &self.logs {
            let noted = log.take(rt, alloc);
            met = met || self.has_had(&noted);
        }
        met
    }

    fn has_had(&self, noted: &Noted) -> bool {
        if self.trial.is_of_loader() {
            noted.loads >= self.trial.call
        } else {
            noted.writes >= self.trial.call
        }
    }

    /// Each of these entries is that of the store, or the last one of three answers.
    pub fn has_all<R: Abort + Wait>(&self, rt: &R, entries: &[(Key, Value)]) {
        for (key, value) in entries {
            match self.trial.fault {
                Fault::AlsoAnswers if key.bytes() == b"c".as_slice() && value.bytes() == LAST => {}
                _ => is(rt, self.store.read(rt, key), Some(*value)),
            }
        }
    }
}

fn logs(rt: &impl Abort, alloc: Global, sessions: usize) -> Vec<Log> {
    let mut logs = Vec::new(alloc);
    for _ in 0..sessions {
        logs.push(Log::new(rt, alloc)).ok().expect(rt, "memory");
    }
    logs
}

/// What the first of these keys has failed with.
fn first_of(failed: &IndexMap<Key, Refusal>) -> Option<Refusal> {
    failed.get_index(0).map(|(_key, why)| *why)
}

/// Whether one of these keys has failed with this.
fn has_failed_with(failed: &IndexMap<Key, Refusal>, cause: Refusal) -> bool {
    for (_key, why) in failed {
        if *why == cause {
            return true;
        }
    }
    false
}

/// Each key that was noted has failed.
fn fails_where_noted(
    rt: &impl Abort,
    noted: &IndexMap<Key, Refusal>,
    failed: &IndexMap<Key, Refusal>,
) {
    for (key, why) in noted {
        is(rt, failed.get(key).copied(), Some(*why));
    }
}

/// The keys that failed are in the order of the call's keys, if it names any.
fn are_in_order(rt: &impl Abort, failed: &IndexMap<Key, Refusal>, keys: &IndexSet<Key>) {
    let mut next = 0usize;
    for (key, _why) in failed {
        if let Some(at) = keys.get_index_of(key) {
            assert!(rt; next <= at);
            next = at;
        }
    }
}
