//! A processor that goes on after a failed load.
use super::noted::Log;
use super::*;
use crate::common::words::{key, value};
use crate::doubles::{LoadFault, ScheduledLoader};
use jc_cache::MutableEntry;
use jc_invoke::invoke;
use jc_model::EntryCall;
use jc_store::{SharedStore, Store};
use std::sync::Arc;
use std::sync::atomic::AtomicU64;
use std::sync::atomic::Ordering::SeqCst;

/// What a call has answered that gives no failure and no flag.
const OTHER: u64 = 99;

/// What each call of a processor on its entry has answered: the code of a failure, or a flag.
#[derive(Drop)]
struct Answers {
    first: AtomicU64,
    second: AtomicU64,
    third: AtomicU64,
    fourth: AtomicU64,
}

/// Gets, sets 7, gets again, asks whether the entry is there, and returns 7, whatever it was answered.
#[derive(Drop)]
struct Stubborn {
    answers: Arc<Answers>,
    seven: Value,
}

/// Makes one call, and notes what it answers.
fn make_call(
    entry: &mut MutableEntry,
    loader: &mut dyn CacheLoader,
    call: &EntryCall,
    answer: &AtomicU64,
) {
    match call {
        EntryCall::GetValue => {
            let got = entry.get_value(loader);
            answer.store(got.err().map_or(OTHER, u64::from), SeqCst);
        }
        EntryCall::Exists => answer.store(u64::from(entry.exists()), SeqCst),
        EntryCall::SetValue(value) => entry.set_value(value),
        EntryCall::Remove => entry.remove(),
    }
}

impl EntryProcessor for Stubborn {
    ghost process_state = { ? };

    ghost processes = { ? };

    fn process(
        &mut self,
        entry: &mut MutableEntry,
        loader: &mut dyn CacheLoader,
        _args: &[Value],
    ) -> Result<Option<Value>, u32> {
        let sets = EntryCall::SetValue(self.seven);
        make_call(entry, loader, &EntryCall::GetValue, &self.answers.first);
        make_call(entry, loader, &sets, &self.answers.second);
        make_call(entry, loader, &EntryCall::GetValue, &self.answers.third);
        make_call(entry, loader, &EntryCall::Exists, &self.answers.fourth);
        Ok(Some(self.seven))
    }
}

/// The load fails with 6: that is the call's answer, and nothing is cached.
fn fails<R: Abort + Wait>(rt: &R, cache: &Cache, session: &mut Session, processor: &mut Processor) {
    let b = key(rt, "b");
    let answer = invoke(rt, cache, session, &b, processor, &[]);
    is(rt, answer, Err(Refusal::LoaderFailed(6)));
    is(rt, cache.contains_key(rt, session, &b), Ok(false));
}

/// Runs the processor on a key of a cache, before this loader and this writer.
fn runs<R: Abort + Wait>(
    rt: &R,
    alloc: Global,
    loader: Loader,
    writer: Writer,
    processor: Processor,
) {
    let shape = Config {
        stripes: 1,
        capacity: 16,
        history: 4_096,
        read_through: true,
        write_through: true,
    };
    let mut owner = CacheOwner::new(alloc, &shape).ok().expect(rt, "a cache");
    let mut processor = processor;
    match owner.session(alloc, Some(loader), Some(writer)) {
        Ok(session) => {
            let mut session = session;
            fails(rt, owner.cache(), &mut session, &mut processor);
        }
        Err(_fault) => panic!(rt; "no session"),
    }
}

fn no_answers(rt: &impl Abort, alloc: Global) -> Arc<Answers> {
    let none = Answers {
        first: AtomicU64::new(OTHER),
        second: AtomicU64::new(OTHER),
        third: AtomicU64::new(OTHER),
        fourth: AtomicU64::new(OTHER),
    };
    Arc::new(alloc, none).ok().expect(rt, "memory")
}

/// The first and the third call were answered the failure 6, and the fourth that the entry isn't there.
fn are_failures(rt: &impl Abort, answers: &Answers) {
    is(rt, answers.first.load(SeqCst), 6);
    is(rt, answers.second.load(SeqCst), OTHER);
    is(rt, answers.third.load(SeqCst), 6);
    is(rt, answers.fourth.load(SeqCst), 0);
}

#[test]
fn a_failed_load_is_answered_again(rt: HostRuntime) {
    let alloc = rt.alloc();
    let store = SharedStore::new(alloc, Store::new(alloc))
        .ok()
        .expect(&rt, "memory");
    let log = Log::new(&rt, alloc);
    let answers = no_answers(&rt, alloc);
    let loads = store.loader(rt).ok().expect(&rt, "memory");
    let loads = ScheduledLoader::new(loads, 1, LoadFault::Fails(6));
    let writes = store.writer(rt).ok().expect(&rt, "memory");
    let loader = boxed!(rt, Loader, log.watching(rt, alloc, loads));
    let writer = boxed!(rt, Writer, log.watching(rt, alloc, writes));
    let stubborn = Stubborn {
        answers: Arc::try_clone(&answers).ok().expect(&rt, "memory"),
        seven: value(&rt, "7"),
    };
    let processor = boxed!(rt, Processor, stubborn);
    runs(&rt, alloc, loader, writer, processor);
    are_failures(&rt, &answers);
    let noted = log.take(&rt, alloc);
    is(&rt, (noted.loads, noted.writes), (1, 0));
}
