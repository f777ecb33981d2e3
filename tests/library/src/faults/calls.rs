//! Calls, and how they end.
use super::words::Line;
use super::*;
use indexmap::IndexMap;
use jc_bulk::{BulkFault, clear, get_all, load_keys, put_all, remove_all, remove_every};
use jc_invoke::{invoke, invoke_all};

/// How a call has ended: why it failed, if it did, and each key that failed.
#[derive(Drop)]
pub struct Ended {
    pub cause: Option<Refusal>,
    pub failed: IndexMap<Key, Refusal>,
}

impl Ended {
    fn well(alloc: Global) -> Self {
        Ended {
            cause: None,
            failed: IndexMap::new(alloc),
        }
    }

    /// The end of a call of one key.
    fn at_key(rt: &impl Abort, alloc: Global, key: &Key, cause: Option<Refusal>) -> Self {
        let mut failed = IndexMap::new(alloc);
        if let Some(why) = cause {
            let _old = failed.insert(*key, why).ok().expect(rt, "memory");
        }
        Ended { cause, failed }
    }

    /// The end of a call with many keys.
    pub fn of(alloc: Global, returned: Result<(), BulkFault>) -> Self {
        match returned {
            Ok(()) => Ended::well(alloc),
            Err(fault) => Ended::of_fault(fault),
        }
    }

    fn of_fault(fault: BulkFault) -> Self {
        let BulkFault {
            cause,
            failed,
            found: _found,
        } = fault;
        Ended {
            cause: Some(cause),
            failed,
        }
    }

    fn of_found(alloc: Global, returned: Result<IndexMap<Key, Value>, BulkFault>) -> Self {
        match returned {
            Ok(_found) => Ended::well(alloc),
            Err(fault) => Ended::of_fault(fault),
        }
    }

    /// The end of an `invokeAll`: only one that is refused whole has a cause.
    fn of_results(
        rt: &impl Abort,
        alloc: Global,
        returned: Result<IndexMap<Key, Result<Value, Refusal>>, Refusal>,
    ) -> Self {
        match returned {
            Ok(results) => Ended {
                cause: None,
                failed: failed_of(rt, alloc, &results),
            },
            Err(why) => Ended {
                cause: Some(why),
                failed: IndexMap::new(alloc),
            },
        }
    }
}

fn failed_of(
    rt: &impl Abort,
    alloc: Global,
    results: &IndexMap<Key, Result<Value, Refusal>>,
) -> IndexMap<Key, Refusal> {
    let mut failed = IndexMap::new(alloc);
    for (k, one) in results {
        if let Err(why) = one {
            let _old = failed.insert(*k, *why).ok().expect(rt, "memory");
        }
    }
    failed
}

/// Makes a call of one key, and says why it failed, if it did.
fn called_at_key<R: Abort + Wait>(
    rt: &R,
    cache: &Cache,
    session: &mut Session,
    processor: &mut Processor,
    word: &str,
    key: &Key,
    value: &Value,
) -> Option<Refusal> {
    match word {
        "get" => cache.get(rt, session, key).err(),
        "put" => cache.put(rt, session, key, value).err(),
        "remove" => cache.remove(rt, session, key).err(),
        "contains" => cache.contains_key(rt, session, key).err(),
        "invoke" => invoke(rt, cache, session, key, processor, &[]).err(),
        "tryget" => cache.try_get(session, key).err(),
        "tryput" => cache.try_put(session, key, value).err(),
        "trycontains" => cache.try_contains_key(session, key).err(),
        _ => panic!(rt; "no call {word}"),
    }
}

/// Makes a call with many keys that has no result but its faults.
fn called<R: Abort + Wait>(
    rt: &R,
    alloc: Global,
    cache: &Cache,
    session: &mut Session,
    line: &Line,
) -> Result<(), BulkFault> {
    match line.word {
        "putall" => put_all(alloc, rt, cache, session, &line.entries),
        "removeall" => remove_all(alloc, rt, cache, session, &line.keys),
        "removeevery" => remove_every(alloc, rt, cache, session),
        "clear" => clear(alloc, rt, cache, session),
        "keep" => load_keys(alloc, rt, cache, session, &line.keys, false),
        _ => load_keys(alloc, rt, cache, session, &line.keys, true),
    }
}

/// Makes the call that a line says.
pub fn call<R: Abort + Wait>(
    rt: &R,
    alloc: Global,
    cache: &Cache,
    session: &mut Session,
    processor: &mut Processor,
    line: &Line,
) -> Ended {
    match line.word {
        "getall" => Ended::of_found(alloc, get_all(alloc, rt, cache, session, &line.keys)),
        "invokeall" => {
            let results = invoke_all(alloc, rt, cache, session, &line.keys, processor, &[]);
            Ended::of_results(rt, alloc, results)
        }
        "putall" | "removeall" | "removeevery" | "clear" | "keep" | "replace" => {
            Ended::of(alloc, called(rt, alloc, cache, session, line))
        }
        word => {
            let (key, value) = line.first(rt);
            let cause = called_at_key(rt, cache, session, processor, word, &key, &value);
            Ended::at_key(rt, alloc, &key, cause)
        }
    }
}
