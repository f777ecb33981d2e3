//! A meeting of two sessions.

/// What the first session does before it meets the last one, and what that one does afterwards. The keys are on two stripes. A
/// meeting is no step.
pub const MET: &str = "\
open 2 4 100
put a 1 = ok
put b 2 = ok
own 2
meet
s4 own 0
s4 get a = 1
s4 get b = 2
s4 own 2
own 2
";
