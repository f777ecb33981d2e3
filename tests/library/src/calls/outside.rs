//! Loaders and writers that fail, and a loader that answers another value each time, in texts.

/// A failed load is the call's answer, and nothing is cached; the next call asks again.
pub const FAILED_LOADS: &str = "\
open 1 4 100 read write
with first fails7 plain
get a = LoaderFailed 7 | 0 0 0
contains a = false | 0 0 0
put a 2 = ok | 0 1 0
get a = 2 | 0 1 0
getinto b = LoaderFailed 7 | 0 1 0
own 5
stored a=2
";

/// A failed write is the call's answer, and the entry stays as it was, whichever the operation.
pub const FAILED_WRITES: &str = "\
open 1 4 100 read write
with first plain fails9
put b 2 = WriterFailed 9 | 0 0 0
getput b 2 = WriterFailed 9 | 0 0 0
putif b 2 = WriterFailed 9 | 0 0 0
contains b = false | 0 0 0
get a = 1 | 1 0 0
put a 2 = WriterFailed 9 | 1 0 0
replace a 2 = WriterFailed 9 | 1 0 0
replaceif a 1 2 = WriterFailed 9 | 1 0 0
getreplace a 2 = WriterFailed 9 | 1 0 0
remove a = WriterFailed 9 | 1 0 0
removeif a 1 = WriterFailed 9 | 1 0 0
getremove a = WriterFailed 9 | 1 0 0
get a = 1 | 1 0 0
own 13
stored a=1
";

/// A loader that answers another value each time: what it answered last is what is cached, until the entry goes.
pub const RISING: &str = "\
open 1 4 100 read
with first rises plain
get a = 1 | 0 0 0
get a = 1 | 0 0 0
get b = 2 | 0 0 0
remove a = true | 0 0 0
get a = 3 | 0 0 0
get b = 2 | 0 0 0
";
