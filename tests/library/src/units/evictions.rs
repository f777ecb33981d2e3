//! Evictions from a stripe with room for two entries.

pub(super) const VICTIMS: &str = "\
a victim
set a 1
set b 1
evict a full
1 s1 put c 1, is ok
2 s1 contains a, is false
evict c full
3 s1 put a 1, is ok
legal
==
the victim is still there
set a 1
set b 1
evict a full
1 s1 put c 1, is ok
2 s1 contains a, is true
illegal
==
one that isn't there
set a 1
set b 1
evict c full
1 s1 put b 1, is ok
illegal
==
the step's own key
set a 1
set b 1
evict b full
1 s1 put b 1, is ok
illegal
==
from a stripe that isn't full
set a 1
evict a full
1 s1 put c 1, is ok
illegal
==
for a step that overwrites
set a 1
set b 1
evict a full
1 s1 put b 1, is ok
illegal
==
for a step that reads
set a 1
set b 1
evict a full
1 s1 contains c, is false
illegal
==
for the wrong cause
set a 1
set b 1
evict a memory
1 s1 put c 1, is ok
illegal
==
no victim
set a 1
set b 1
1 s1 put c 1, is ok
illegal
==
no step
set a 1
set b 1
evict a full
illegal
==
two victims
set a 1
set b 1
evict a full
evict b full
1 s1 put c 1, is ok
illegal";

pub(super) const OWN: &str = "\
from a full stripe
set a 1
set b 1
1 s1 put c 1, is ok
evict c full
2 s1 contains c, is false
legal
==
it is still there
set a 1
set b 1
1 s1 put c 1, is ok
evict c full
2 s1 contains c, is true
illegal
==
another key
set a 1
set b 1
1 s1 put c 1, is ok
evict a full
illegal
==
from one with room
set a 1
1 s1 put c 1, is ok
evict c full
illegal
==
from one with a victim
set a 1
set b 1
evict a full
1 s1 put c 1, is ok
evict c full
illegal
==
what the step found
set a 1
set b 1
1 s1 put b 1, is ok
evict b full
illegal
==
twice
set a 1
set b 1
1 s1 put c 1, is ok
evict c full
evict c full
illegal
==
out of memory
set a 1
1 s1 put c 1, is ok
evict c memory
2 s1 contains c, is false
legal
==
out of memory, and a victim
set a 1
set b 1
evict a full
1 s1 put c 1, is ok
evict c memory
2 s1 contains c, is false
legal
==
out of memory for another
set a 1
1 s1 put c 1, is ok
evict a memory
illegal
==
out of memory to overwrite
set a 1
1 s1 put a 2, is ok
evict a memory
illegal";
