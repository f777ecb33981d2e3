//! Openings that have no legal history, keys of two stripes, and a shape that has no history at all.

pub(super) const OPENINGS: &str = "\
as many as fit
set b 1
set a 2
legal
==
one too many
set a 1
set b 1
set c 1
illegal
==
a key twice
set a 1
set a 2
illegal";

// Of 4 stripes, a and e are of stripe 1, and b of stripe 2.
pub(super) const STRIPES: &str = "\
of one stripe
set e 1
1 s1 put a 1, is ok
2 s1 put e 1, is ok
legal
==
events of two
1 s1 put a 1, is ok
2 s1 put b 1, is ok
illegal
==
openings of two
set a 1
set b 1
1 s1 contains a, is true
illegal
==
both of two
set b 1
1 s1 put a 1, is ok
illegal";

// A shape without stripes, which no cache has.
pub(super) const NO_STRIPE: &str = "\
nothing

illegal";

// The same, in a shape of one stripe.
pub(super) const ONE_STRIPE: &str = "\
nothing

legal";
