//! Entry processors in whole calls, in front of a store whose calls are counted. A line says the key, the processor's calls, what the
//! call is to answer, and how often, by then, the loader was called, and the writer to write and to delete.
//!
//!     invoke a get set=2 get = 2 | 1 1 0
use super::answers::entry;
use super::scripted::processor_of;
use super::*;

/// Runs a processor that makes the calls which the words say.
pub fn invoked<R: Abort + Wait>(
    rt: &R,
    alloc: Global,
    cache: &Cache,
    session: &mut Session,
    key: &Key,
    words: &str,
) -> Answer {
    let mut processor = processor_of(rt, alloc, words);
    entry(cache.invoke(rt, session, key, &mut processor, &[]))
}

/// The sequences of JSR 107's integration section, on keys that are missing and then on the same keys: one load, one write.
pub const NET_EFFECTS: &str = "\
open 1 4 100 read write
invoke a get set=2 get set=3 = 2 | 1 1 0
invoke a get set=4 get set=5 = 4 | 1 2 0
invoke b get remove get set=5 = - | 2 3 0
invoke b get remove get set=6 = - | 2 4 0
stored a=5 b=6
invoke b get = 6 | 2 4 0
invoke c exists = - | 2 4 0
invoke c remove = - | 2 4 1
invoke b get set=7 remove = 6 | 2 4 2
own 8
stored a=5
";

/// A processor that sets and fails leaves nothing, also of a value that was loaded for it.
pub const FAILED: &str = "\
open 1 4 100 read write
invoke a get set=6 fail=3 = ProcessorFailed 3 | 1 0 0
contains a = false | 1 0 0
put b 1 = ok | 1 1 0
invoke b remove fail=4 = ProcessorFailed 4 | 1 1 0
get b = 1 | 1 1 0
stored a=1 b=1
";

/// With both options off a processor works on the cache alone.
pub const ALONE: &str = "\
open 1 4 100
invoke a get set=2 get set=3 = 2 | 0 0 0
invoke a get remove get set=5 = - | 0 0 0
invoke a get remove = 5 | 0 0 0
contains a = false | 0 0 0
stored a=1
";

/// A processor that continues after a failed load: the loader isn't called again, nothing is written, and its failure is the
/// answer.
pub const FAILED_LOADS: &str = "\
open 1 4 100 read write
with first fails7 plain
invoke b get set=7 get exists = LoaderFailed 7 | 0 0 0
invoke b get get fail=3 = LoaderFailed 7 | 0 0 0
contains b = false | 0 0 0
stored a=1
";

/// A processor that calls nothing asks nobody, leaves the entry as it is, and returns none. It is a step all the same.
pub const SILENT: &str = "\
open 1 4 100 read write
invoke a nothing = - | 0 0 0
contains a = false | 0 0 0
put a 2 = ok | 0 1 0
invoke a nothing = - | 0 1 0
get a = 2 | 0 1 0
own 5
stored a=2
";

/// On a store without entries the first increment gives 1, and the second one 2, which loads nothing.
pub const FIRST_INCREMENTS: &str = "\
open 1 4 100 read write
store -
invoke a get next get = 1 | 1 1 0
invoke a get next get = 2 | 1 2 0
own 2
stored a=2
";
