//! Calls of sessions on threads whose loads and writes wait for each other, in texts. The loader and the writer of the first session
//! wait for a signal.

/// `hit_during_load`: a loader that waits holds no stripe, and another session's hit on the same stripe is answered meanwhile.
pub const HIT_DURING_LOAD: &str = "\
open 1 4 100 read write
store a=1 b=2
with first waits waits
s2 get b = 2 | 1 0 0
beside get a = 1 / await; get b = 2; raise
steps 1 b 2, 1 b 2, 0 a 1
";

/// Of sessions that get one missing key, one loads it: the others join its load, or come after it.
pub const ONE_LOAD: &str = "\
open 1 4 100 read write
store a=1 b=2
with first waits waits
beside get a = 1 / await; get a = 1 / await; rest; raise; get a = 1
get a = 1 | 1 0 0
";

/// A put waits until its key isn't reserved any more, and is then done.
pub const PUT_WAITS: &str = "\
open 1 4 100 read write
store a=1 b=2
with first waits waits
beside get a = 1 / await; put a 3 = ok / await; rest; get b = 2; raise
get a = 3 | 2 1 0
stored a=3 b=2
steps 2 b 2, 0 a 1, 1 a ok, 0 a 3
";

/// A writer that waits holds no stripe: until the commit the old value is answered, though the store may have the new one.
pub const HIT_DURING_WRITE: &str = "\
open 1 4 100 read write
store a=1 b=2
with first waits waits
s2 get a = 1 | 1 0 0
beside put a 3 = ok / await; get a = 1; raise
s2 get a = 3 | 1 1 0
stored a=3 b=2
steps 1 a 1, 1 a 1, 0 a ok, 1 a 3
";

/// A session joins a load that is then given up: its call retries by itself, and asks its own loader. Whether it has joined by then is
/// up to the threads: if it comes later, all is the same. The call that was given up asks nobody, and leaves nothing.
pub const LOAD_GIVEN_UP: &str = "\
open 1 4 100 read write
store a=1 b=2
beside withdraw get a / await; get a = 1 / await; rest; rest; rest; rest; raise
s2 own 1
own 0
get a = 1 | 1 0 0
steps 1#1 a 1 < 1, 0#2 a 1 < -
";

/// The same of a loader that fails: who has joined its load isn't told so, since it isn't asked.
pub const FAILING_LOAD_GIVEN_UP: &str = "\
open 1 4 100 read write
store a=1 b=2
with first fails7 fails9
beside withdraw get a / await; get a = 1 / await; get a = 1 / await; rest; rest; rest; rest; raise
own 0
get a = 1 | 1 0 0
";

/// A put waits until a write of its key is given up. The value of that one is nowhere.
pub const WRITE_GIVEN_UP: &str = "\
open 1 4 100 read write
store a=1 b=2
beside withdraw put a 5 / await; put a 6 = ok / await; rest; rest; rest; rest; raise
get a = 6 | 0 1 0
stored a=6 b=2
steps 1#1 a ok, 0#2 a 6
";
