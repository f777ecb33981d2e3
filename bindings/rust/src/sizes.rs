//! How large a cache is, and how that is dealt to its stripes.
use crate::BuildError;
use crate::core::{CAPACITY_MAX, HISTORY, Shape};
use std::fmt;

/// The most stripes of a cache whose stripes are desks of their own: the core's own limit doesn't count.
pub(crate) const STRIPES_MAX: usize = 4096;

/// How many stripes a cache has usually, if it is large enough.
const STRIPES_USUAL: usize = 16;

/// A cache gets a second stripe when each can have so many entries: hashes fill stripes unevenly.
const ROOMY: usize = 256;

const CAPACITY_DEFAULT: usize = STRIPES_USUAL * CAPACITY_MAX;

/// Room for as many calls of a stripe as there can be at a time.
const HISTORY_DEFAULT: usize = 260;

/// What a builder is told of sizes.
#[derive(Clone, Copy, Debug, Default)]
pub(crate) struct Sizes {
    pub stripes: Option<usize>,
    /// Of the whole cache.
    pub capacity: Option<usize>,
    /// Of each stripe.
    pub history: Option<usize>,
}

/// An option that has to be in these limits; `with` says on what they depend.
fn within(
    option: &'static str,
    given: usize,
    limits: std::ops::RangeInclusive<usize>,
    with: &str,
) -> Result<usize, BuildError> {
    if limits.contains(&given) {
        return Ok(given);
    }
    let (least, most) = limits.into_inner();
    let wanted = format!("a number from {least} to {most}{with}");
    Err(wrong(option, given, wanted))
}

pub(crate) fn wrong(
    option: &'static str,
    given: impl fmt::Debug,
    wanted: impl Into<String>,
) -> BuildError {
    BuildError::Option {
        option,
        given: format!("{given:?}"),
        wanted: wanted.into(),
    }
}

impl Sizes {
    /// How many stripes, of at most so many, and how many entries of all of them.
    fn dealt(&self, stripes_max: usize) -> Result<(usize, usize), BuildError> {
        let Some(stripes) = self.stripes else {
            let capacity = self.capacity.unwrap_or(CAPACITY_DEFAULT);
            let capacity = within("capacity", capacity, 1..=stripes_max * CAPACITY_MAX, "")?;
            let usual = (capacity / ROOMY).clamp(1, STRIPES_USUAL);
            return Ok((usual.max(capacity.div_ceil(CAPACITY_MAX)), capacity));
        };
        let stripes = within("stripes", stripes, 1..=stripes_max, "")?;
        let limits = stripes..=stripes * CAPACITY_MAX;
        let capacity = CAPACITY_DEFAULT.clamp(*limits.start(), *limits.end());
        let with = format!(" with {stripes} stripes");
        let capacity = within("capacity", self.capacity.unwrap_or(capacity), limits, &with)?;
        Ok((stripes, capacity))
    }

    /// What is opened for each stripe, of at most so many. All have as many entries as the cache, and differ by at most one.
    ///
    /// # Errors
    /// [`BuildError::Option`].
    pub(crate) fn shapes(
        &self,
        stripes_max: usize,
        read_through: bool,
        write_through: bool,
    ) -> Result<impl ExactSizeIterator<Item = Shape>, BuildError> {
        let (stripes, capacity) = self.dealt(stripes_max)?;
        let history = self.history.unwrap_or(HISTORY_DEFAULT);
        let history = within("history", history, HISTORY, "")?;
        Ok((0..stripes).map(move |stripe| Shape {
            stripes,
            capacity: capacity / stripes + usize::from(stripe < capacity % stripes),
            history,
            read_through,
            write_through,
            keeps_events: false,
        }))
    }
}
