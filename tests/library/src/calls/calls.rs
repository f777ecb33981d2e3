//! Each of the eleven calls, on a key that is cached and on one that isn't, with either option on and off.
/// A day of one session: each call asks the loader and the writer exactly where the operation table says so.
pub const DAY: &str = "\
open 1 4 100 read write
get a = 1 | 1 0 0
getinto a = 1 | 1 0 0
put b 2 = ok | 1 1 0
remove c = false | 1 1 1
contains d = false | 1 1 1
replace b 3 = true | 1 2 1
putif b 9 = false | 1 2 1
getremove b = 3 | 1 2 2
removeif a 5 = false | 1 2 2
own 9
stored a=1
";

/// On keys that aren't cached. Only `get` loads, and a `remove` asks for a delete all the same.
pub const MISSING: &str = "\
open 1 4 100 read write
contains a = false | 0 0 0
replace a 5 = false | 0 0 0
replaceif a 1 5 = false | 0 0 0
getreplace a 5 = - | 0 0 0
removeif a 1 = false | 0 0 0
getremove b = - | 0 0 1
remove b = false | 0 0 2
get b = - | 1 0 2
getinto b = - | 2 0 2
getput c 3 = - | 2 1 2
putif d 4 = true | 2 2 2
put e 5 = ok | 2 3 2
own 12
stored a=1 c=3 d=4 e=5
";

/// On keys that are cached: nobody is asked to load.
pub const CACHED: &str = "\
open 1 4 100 read write
put b 1 = ok | 0 1 0
get b = 1 | 0 1 0
contains b = true | 0 1 0
getput b 2 = 1 | 0 2 0
putif b 9 = false | 0 2 0
replace b 3 = true | 0 3 0
replaceif b 9 4 = false | 0 3 0
replaceif b 3 4 = true | 0 4 0
getreplace b 5 = 4 | 0 5 0
removeif b 9 = false | 0 5 0
removeif b 5 = true | 0 5 1
put b 6 = ok | 0 6 1
getremove b = 6 | 0 6 2
put b 7 = ok | 0 7 2
remove b = true | 0 7 3
own 15
stored a=1
";

/// With both options off nobody is asked, and the store stays as it was.
pub const ALONE: &str = "\
open 1 4 100
get a = - | 0 0 0
put a 2 = ok | 0 0 0
get a = 2 | 0 0 0
getput a 3 = 2 | 0 0 0
replaceif a 3 4 = true | 0 0 0
getreplace a 5 = 4 | 0 0 0
removeif a 5 = true | 0 0 0
putif a 6 = true | 0 0 0
replace a 7 = true | 0 0 0
getremove a = 7 | 0 0 0
remove a = false | 0 0 0
contains a = false | 0 0 0
own 12
stored a=1
";

/// With read-through alone a get loads, and no mutation is written.
pub const READS: &str = "\
open 1 4 100 read
get a = 1 | 1 0 0
put a 2 = ok | 1 0 0
remove a = true | 1 0 0
getinto a = 1 | 2 0 0
stored a=1
";

/// With write-through alone each mutation is written, and a get of a missing key finds none.
pub const WRITES: &str = "\
open 1 4 100 write
get a = - | 0 0 0
putif a 2 = true | 0 1 0
get a = 2 | 0 1 0
remove a = true | 0 1 1
stored
";
