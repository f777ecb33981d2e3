//! Calls with many keys, whole: in front of a store, and of writers that do their work in part.

/// Each call with many keys, one after another.
pub const TOUR: &str = "\
open 2 4 100
before a=1
sessions 1
fault none
end stripes 6, 6
getall a b = a=1
counts 0 1 0 0 0 0
putall b=2 = ok
counts 0 1 0 1 0 0
invokeall a b = a 2, b 3
counts 0 1 0 2 0 0
loadall a c = ok
told 1 0
counts 0 2 0 2 0 0
removeall a = ok
counts 0 2 0 2 0 1
clear = ok
get a = -
get b = 3
counts 2 2 0 2 0 1
removeevery = ok
counts 2 2 0 2 0 2
removeevery = ok
counts 2 2 0 2 0 2
stored
own 12
";

/// The writer leaves b, adds z=9 and fails with 4.
pub const LEFT_IN_PART: &str = "\
open 1 16 4096
before
sessions 1
fault 1 4 b
end stripes 7 c=3 a=1
putall a=1 b=2 c=3 = WriterFailed 4: b WriterFailed 4
stored a=1 c=3
getall a c = a=1 c=3
counts 0 0 0 1 0 0
get b = -
get z = -
own 7
";

/// The writer leaves nothing, and fails with 5.
pub const LEFT_NOTHING: &str = "\
open 1 16 4096
before
sessions 1
fault 1 5
end stripes 6 c=3 b=2 a=1
putall a=1 b=2 c=3 = WriterFailed 5
stored a=1 b=2 c=3
getall a b c = a=1 b=2 c=3
counts 0 0 0 1 0 0
";

/// The writer leaves b, and returns normally.
pub const LEFT_NORMALLY: &str = "\
open 1 16 4096
before
sessions 1
fault 1 - b
end stripes 6 a=1
putall a=1 b=2 = WriterFailed 0: b WriterFailed 0
stored a=1
replace a b = ok
getall a b = a=1
";

/// A history of 16 places has room for five keys. The writer leaves b and fails with 4, after f was refused.
pub const NEARLY_FULL: &str = "\
open 1 16 16
before
sessions 1
fault 1 4 b
end stripes 5 e=5 d=4 c=3 a=1
putall a=1 b=2 c=3 d=4 e=5 f=6 = HistoryFull: b WriterFailed 4, f HistoryFull
stored a=1 c=3 d=4 e=5
own 5
";

/// At its second call, the batch of the processors' values, the writer leaves b and fails with 6.
pub const PROCESSED_IN_PART: &str = "\
open 1 16 4096
before
sessions 1
fault 2 6 b
end stripes 5 a=2
put a 1 = -
invokeall a b = a 2, b WriterFailed 6
stored a=2
getall a b = a=2
counts 1 1 1 1 0 0
";

/// Processors that return none, that fail after they have set a value, and that set and remove: the values that are set are one batch
/// of the writer, and the keys that are removed are another one. None of them loads. The results are in the order of the keys.
pub const PROCESSED: &str = "\
open 1 16 4096
before a=1 c=3
sessions 1
fault none
end stripes 7 a=7 b=7
idleall a b = -
counts 0 0 0 0 0 0
own 2
failall b a = b ProcessorFailed 3, a ProcessorFailed 3
counts 0 0 0 0 0 0
stored a=1 c=3
own 4
changeall b c a = b 7, c 7, a 7
counts 0 0 0 1 0 1
stored a=7 b=7
own 7
invokemany 1025 = TooManyKeys
counts 0 0 0 1 0 1
stored a=7 b=7
own 7
";

/// The loader answers for a key that wasn't asked, and three times for one that was: 3, which the store has, then 8, and 7 at last.
pub const ANSWERED_TWICE: &str = "\
open 1 16 4096
before a=1 c=3
sessions 1
fault answers z=9 c=8 c=7
end stripes 4 c=7 a=1
getall a c = a=1 c=7
get c = 7
counts 0 1 0 0 0 0
get z = -
stored a=1 c=3
own 4
";

/// The most keys of a call, all of one stripe, are got in rounds of 64; one more is too many.
pub const MANY: &str = "\
open 1 16 4096
before
sessions 1
fault none
end stripes 1024
getmany 1025 = TooManyKeys
own 0
getmany 1024 = -
own 1024
counts 0 16 0 0 0 0
";

/// The same on a cache that lives on, over a history that has room for five reservations: so many keys a round.
pub const MANY_LIVING: &str = "\
open 1 16 16 lives
before
sessions 1
fault none
end number 1
getmany 1024 = -
own 1024
counts 0 205 0 0 0 0
";
