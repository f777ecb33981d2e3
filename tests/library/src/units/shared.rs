//! Loads that several callers share, and a put meanwhile.

// A load answers, and its value is seen while a put is out; the put commits, and then the new value is seen.
pub(super) const PUT: &str = "\
the run
1 s1 get a, read 1, is 1
3 s2 get a, is 1
2 s1 put a 2, apply, is ok
4 s2 get a, is 2
legal
==
the load replies another value
1 s1 get a, read 1, is 2
3 s2 get a, is 1
2 s1 put a 2, apply, is ok
4 s2 get a, is 2
illegal
==
the put is seen too early
1 s1 get a, read 1, is 1
3 s2 get a, is 2
2 s1 put a 2, apply, is ok
4 s2 get a, is 2
illegal
==
the put replies another thing
1 s1 get a, read 1, is 1
3 s2 get a, is 1
2 s1 put a 2, apply, is true
4 s2 get a, is 2
illegal
==
the put is never seen
1 s1 get a, read 1, is 1
3 s2 get a, is 1
2 s1 put a 2, apply, is ok
4 s2 get a, is 1
illegal
==
the writer isn't asked
1 s1 get a, read 1, is 1
3 s2 get a, is 1
2 s1 put a 2, is ok
4 s2 get a, is 2
illegal
==
the writer fails, and the put is not seen
1 s1 get a, read 1, is 1
2 s1 put a 2, applyfail 5, is WriterFailed 5
4 s2 get a, is 1
legal
==
the writer fails, and the put is seen
1 s1 get a, read 1, is 1
2 s1 put a 2, applyfail 5, is WriterFailed 5
4 s2 get a, is 2
illegal";

pub(super) const LOADED: &str = "\
a value
1 s1 get a, read 1, is 1
2 s2 get a, read 1, is 1 shared 0
1 s3 get a, read 1, is 1 shared 0
2 s1 clear a, is ok
legal
==
nothing
1 s1 get a, read -, is -
2 s2 get a, read -, is - shared 0
legal
==
a fault
1 s1 get a, readfail 7, is LoaderFailed 7
2 s2 get a, readfail 7, is LoaderFailed 7 shared 0
legal
==
of a loadAll
1 s1 loadall a, read 1, is ok
2 s2 get a, read 1, is 1 shared 0
legal
==
of a loadAll of an entry that is there
set a 1
1 s1 loadall a, read 1, is ok
2 s2 get a, read 1, is 1 shared 0
illegal
==
of a hit
set a 1
1 s1 get a, is 1
2 s2 get a, read 1, is 1 shared 0
illegal
==
of a hit, and nobody was asked
set a 1
1 s1 get a, is 1
2 s2 get a, is 1 shared 0
illegal
==
behind the group
1 s1 get a, read 1, is 1
2 s1 get b, read 1, is 1
2 s2 get a, read 1, is 1 shared 0
illegal
==
before it
2 s2 get a, read 1, is 1 shared 0
1 s1 get a, read 1, is 1
illegal
==
by the step itself
2 s1 get a, read 1, is 1
2 s1 get a, read 1, is 1 shared 0
illegal";

pub(super) const SPOILED: &str = "\
another place
1 s1 get a, read 1, is 1
2 s2 get a, read 1, is 1 shared 1
illegal
==
another key
1 s1 get a, read 1, is 1
2 s2 get b, read 1, is 1 shared 0
illegal
==
no get
1 s1 get a, read 1, is 1
2 s2 loadall a, read 1, is ok shared 0
illegal
==
another answer
1 s1 get a, read 1, is 1
2 s2 get a, read -, is - shared 0
illegal
==
nobody asked
1 s1 get a, read 1, is 1
2 s2 get a, is 1 shared 0
illegal
==
another reply
1 s1 get a, read 1, is 1
2 s2 get a, read 1, is - shared 0
illegal";

// A key is loaded into a full stripe whose other entries are reserved, two callers share the load, and the new entry goes
// at once.
pub(super) const EVICTED: &str = "\
behind all who share
set a 1
set b 1
1 s1 get c, read 1, is 1
2 s2 get c, read 1, is 1 shared 0
3 s3 get c, read 1, is 1 shared 0
evict c full
legal
==
between those who share
set a 1
set b 1
1 s1 get c, read 1, is 1
2 s2 get c, read 1, is 1 shared 0
evict c full
3 s3 get c, read 1, is 1 shared 0
illegal
==
not at all
set a 1
set b 1
1 s1 get c, read 1, is 1
2 s2 get c, read 1, is 1 shared 0
illegal";
