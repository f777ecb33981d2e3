//! The calls that wait for nobody.

/// With both options off each is done at once.
pub const ALONE: &str = "\
open 1 4 100
tryput a 1 = ok | 0 0 0
tryget a = 1 | 0 0 0
trycontains b = false | 0 0 0
tryget b = - | 0 0 0
own 4
";

/// With read-through a missing key would have to be loaded, so nothing is done.
pub const READS: &str = "\
open 1 4 100 read
tryget a = Busy | 0 0 0
trycontains a = false | 0 0 0
get a = 1 | 1 0 0
tryget a = 1 | 1 0 0
tryput a 2 = ok | 1 0 0
tryget a = 2 | 1 0 0
own 5
";

/// With write-through a put would have to be written, so nothing is done.
pub const WRITES: &str = "\
open 1 4 100 write
tryput a 1 = Busy | 0 0 0
tryget a = - | 0 0 0
put a 2 = ok | 0 1 0
tryput a 1 = Busy | 0 1 0
tryget a = 2 | 0 1 0
own 3
";
