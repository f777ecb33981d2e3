//! The call at which a fault happens.

/// Counts a call down, and returns whether it is the scheduled one. `left` is the number of calls up to and with the scheduled
/// one; at 0 no call is scheduled.
pub(crate) fn count_down(left: &mut u64) -> bool {
    let is_due = *left == 1;
    *left = left.saturating_sub(1);
    is_due
}
