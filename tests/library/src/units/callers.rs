//! The callers' order.

pub(super) const CALLERS: &str = "\
a call's number that rises
5 s1 put a 1, is ok
6 s1 put a 1, is ok
legal
==
one that falls
5 s1 put a 1, is ok
4 s1 put a 1, is ok
illegal
==
one that falls further on, at another key
5 s1 put a 1, is ok
1 s2 put b 1, is ok
4 s1 put b 1, is ok
illegal
==
one of another session
5 s1 put a 1, is ok
4 s2 put a 1, is ok
legal
==
a bulk call
5 s1 put a 1, is ok
5 s1 put b 1, is ok
legal
==
a bulk call with a key twice
5 s1 put a 1, is ok
5 s1 put b 1, is ok
5 s1 put a 1, is ok
illegal
==
the same step behind an eviction
5 s1 put a 1, is ok
1 s2 put b 1, is ok
evict b memory
5 s1 put a 1, is ok
illegal
==
an eviction between
5 s1 put a 1, is ok
1 s2 put b 1, is ok
evict b memory
6 s1 put a 1, is ok
legal";
