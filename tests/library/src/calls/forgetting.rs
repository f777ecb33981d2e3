//! Keys that are forgotten, since somebody else may have written them, in texts. An invalidation is no call and no step, and isn't
//! counted as an eviction.

/// A key that is cached, and one that isn't.
pub const ONE_KEY: &str = "\
open 1 4 100 read write
store a=1 b=2
get a = 1 | 1 0 0
get b = 2 | 2 0 0
invalidate a
get b = 2 | 2 0 0
get a = 1 | 3 0 0
invalidate c
get a = 1 | 3 0 0
own 5
counts 2 3 0 0 0
steps 0#1 a 1 < 1, 0#2 b 2 < 2, evict a, 0#3 b 2, 0#4 a 1 < 1, 0#5 a 1
";

/// All keys of each stripe.
pub const ALL_KEYS: &str = "\
open 2 4 100 read write
store a=1 b=2 c=3
get a = 1 | 1 0 0
get b = 2 | 2 0 0
get c = 3 | 3 0 0
invalidateall
get a = 1 | 4 0 0
get b = 2 | 5 0 0
get c = 3 | 6 0 0
own 6
counts 0 6 0 0 0
";

/// Without a loader nothing is found, and the entry is gone.
pub const NOT_LOADED: &str = "\
open 1 4 100
put a 1 = ok
put b 2 = ok
invalidate a
get a = - | 0 0 0
get b = 2 | 0 0 0
invalidateall
get b = - | 0 0 0
counts 1 2 2 0 0
";

/// A key that is being loaded by a loader that waits. Who gets it meanwhile joins the load, or waits for its end, or comes later.
pub const DURING_LOAD: &str = "\
open 1 4 100 read write
store a=1 b=2
with first waits waits
beside get a = 1 / await; invalidate a; raise
s2 get a = 1 | 2 0 0
s2 get a = 1 | 2 0 0
";

pub const DURING_JOINED_LOAD: &str = "\
open 1 4 100 read write
store a=1 b=2
with first waits waits
beside get a = 1 / await; get a = 1 / await; get a = 1 / await; rest; rest; invalidate a; rest; raise
s2 get a = 1
";

pub const ALL_DURING_LOAD: &str = "\
open 1 4 100 read write
store a=1 b=2
with first waits waits
s2 get b = 2 | 1 0 0
beside get a = 1 / await; invalidateall; get b = 2; raise
s2 get a = 1 | 4 0 0
";

/// A history of 16 events, which doesn't live on. The first invalidation has a place. The second one has none: calls are refused as they
/// were, and answer nothing of what was cached.
pub const FULL: &str = "\
open 1 4 16 read write
store a=1 b=2
get a = 1 | 1 0 0
put b 2 = ok | 1 1 0
put b 2 = ok | 1 2 0
put b 2 = ok | 1 3 0
put b 2 = ok | 1 4 0
put b 2 = ok | 1 5 0
put b 2 = ok | 1 6 0
put b 2 = ok | 1 7 0
put b 2 = ok | 1 8 0
put b 2 = ok | 1 9 0
put b 2 = ok | 1 10 0
put b 2 = ok | 1 11 0
put b 2 = ok | 1 12 0
put b 2 = ok | 1 13 0
invalidate a
get a = HistoryFull | 1 13 0
get b = 2 | 1 13 0
invalidate b
get b = HistoryFull | 1 13 0
contains b = HistoryFull | 1 13 0
tryget b = HistoryFull | 1 13 0
invalidateall
get b = HistoryFull | 1 13 0
own 15
";

/// A history of 16 events that isn't full, of a stripe that is swept when a call begins there.
pub const SWEPT: &str = "\
open 1 4 16
put a 1 = ok
put b 2 = ok
put c 3 = ok
put d 4 = ok
invalidateall
get a = -
get b = -
get c = -
get d = -
put a 5 = ok
get a = 5
own 10
counts 1 4 5 0 0
";
