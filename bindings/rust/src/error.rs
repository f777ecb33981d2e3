//! What may go wrong.
use crate::at::{At, shown};
use crate::core;
use std::error::Error as StdError;
use std::fmt;
use std::sync::Arc;

/// Why a call has no answer: `L` is the loader's error, `W` the writer's; and where, if the cache has a [name](crate::Builder::name).
///
/// After any of these the entry is as it was before the call, with what it had left to live.
#[derive(Debug)]
#[non_exhaustive]
pub enum Error<L, W> {
    /// The loader failed. All calls that have joined this load share its error.
    Loader(Arc<L>, At),
    /// The loader panicked: in another call, whose load this one had joined; in one in the background; or in a processor that has caught
    /// it and gone on.
    LoaderPanicked(At),
    /// The writer failed.
    Writer(W, At),
    /// The processor of an `invoke` failed, with an error of its own.
    Processor(Box<dyn StdError + Send + Sync>, At),
    /// The call would wait for its own thread: it was made inside a loader, a writer, a processor or a policy, at a key that this thread
    /// has reserved, at one whose call waits for this thread, or in a stripe that has no room for a call more.
    WouldDeadlock(At),
    /// Of a [`BytesCache`](crate::BytesCache): a key has 1 to 32 bytes, and a value 0 to 256, also one that a loader finds.
    Limits(At),
    /// The cache has counted 2^64 calls.
    HistoryFull(At),
    /// The cache is closed.
    Closed(At),
}

impl<L, W> Error<L, W> {
    /// The error of a processor. Its call says where it has failed.
    pub fn processor(error: impl Into<Box<dyn StdError + Send + Sync>>) -> Self {
        Error::Processor(error.into(), At::default())
    }

    /// Where the call has failed.
    pub fn at(&self) -> &At {
        match self {
            Error::Loader(_, at) | Error::Writer(_, at) | Error::Processor(_, at) => at,
            Error::LoaderPanicked(at) | Error::WouldDeadlock(at) | Error::Limits(at) => at,
            Error::HistoryFull(at) | Error::Closed(at) => at,
        }
    }
}

impl<L: fmt::Display, W: fmt::Display> fmt::Display for Error<L, W> {
    fn fmt(&self, f: &mut fmt::Formatter<'_>) -> fmt::Result {
        let (what, why): (_, Option<&dyn fmt::Display>) = match self {
            Error::Loader(error, _) => ("the loader failed", Some(error)),
            Error::LoaderPanicked(_) => ("the loader panicked", None),
            Error::Writer(error, _) => ("the writer failed", Some(error)),
            Error::Processor(error, _) => ("the processor failed", Some(error)),
            Error::WouldDeadlock(_) => ("the call would wait for its own thread", None),
            Error::Limits(_) => ("a key has 1 to 32 bytes, a value 0 to 256", None),
            Error::HistoryFull(_) => ("the history is full", None),
            Error::Closed(_) => ("the cache is closed", None),
        };
        f.write_str(what)?;
        if self.at().cache().is_some() {
            write!(f, " ({})", self.at())?;
        }
        why.map_or(Ok(()), |error| write!(f, ": {error}"))
    }
}

impl<L: StdError + 'static, W: StdError + 'static> StdError for Error<L, W> {
    fn source(&self) -> Option<&(dyn StdError + 'static)> {
        match self {
            Error::Loader(error, _) => Some(&**error),
            Error::Writer(error, _) => Some(error),
            Error::Processor(error, _) => Some(&**error),
            _ => None,
        }
    }
}

/// Why a call of many keys failed: at some of its keys, or as a whole.
#[derive(Debug)]
pub struct BulkError<K, V, L, W> {
    /// The first failure.
    pub error: Error<L, W>,
    /// The keys that failed, and those that a call which was stopped has not reached. At all others it took effect.
    pub failed: Vec<K>,
    /// What a [`get_all`](crate::Cache::get_all) has found at the others, of those that have a value.
    pub found: Vec<(K, Arc<V>)>,
}

/// How many failed keys a text names.
const NAMED: usize = 3;

impl<K: fmt::Debug, V, L: fmt::Display, W: fmt::Display> fmt::Display for BulkError<K, V, L, W> {
    fn fmt(&self, f: &mut fmt::Formatter<'_>) -> fmt::Result {
        let mut names: Vec<String> = self.failed.iter().take(NAMED).map(shown).collect();
        if self.failed.len() > NAMED {
            names.push(format!("and {} more", self.failed.len() - NAMED));
        }
        match names.len() {
            0 => {}
            1 => write!(f, "a key failed ({}): ", names[0])?,
            _ => write!(
                f,
                "{} keys failed ({}): ",
                self.failed.len(),
                names.join(", ")
            )?,
        }
        write!(f, "{}", self.error)
    }
}

impl<K, V, L, W> StdError for BulkError<K, V, L, W>
where
    K: fmt::Debug,
    V: fmt::Debug,
    L: StdError + 'static,
    W: StdError + 'static,
{
    fn source(&self) -> Option<&(dyn StdError + 'static)> {
        Some(&self.error)
    }
}

/// Why a cache can't be built.
#[derive(Clone, Debug, PartialEq, Eq)]
#[non_exhaustive]
pub enum BuildError {
    /// An option of the builder is out of its limits.
    Option {
        /// Its method's name.
        option: &'static str,
        /// What it was given, as `Debug` writes it.
        given: String,
        /// What it has to be.
        wanted: String,
    },
    /// An allocation failed.
    NoMemory,
    /// The library that `CADWRELCH_CORE` named at the build is of another version: 1,000,000 * major + 1,000 * minor + patch.
    Version {
        /// The library's.
        found: u32,
        /// That which this crate is written for. Another patch will do, and nothing else.
        wanted: u32,
    },
}

/// A version as one writes it.
struct Version(u32);

impl fmt::Display for Version {
    fn fmt(&self, f: &mut fmt::Formatter<'_>) -> fmt::Result {
        let (major, minor) = (self.0 / 1_000_000, self.0 / 1000 % 1000);
        write!(f, "{major}.{minor}.{}", self.0 % 1000)
    }
}

impl fmt::Display for BuildError {
    fn fmt(&self, f: &mut fmt::Formatter<'_>) -> fmt::Result {
        match self {
            #[rustfmt::skip]
            BuildError::Option { option, given, wanted } => {
                write!(f, "{option} is {given}: it has to be {wanted}")
            }
            BuildError::NoMemory => f.write_str("out of memory"),
            BuildError::Version { found, wanted } => write!(
                f,
                "the core is of version {}, and this crate is for {}: build it without CADWRELCH_CORE, or with an archive of that version",
                Version(*found),
                Version(*wanted)
            ),
        }
    }
}

impl StdError for BuildError {}

impl From<core::Code> for BuildError {
    fn from(code: core::Code) -> BuildError {
        match code {
            core::Code::WrongVersion => BuildError::Version {
                found: core::version(),
                wanted: core::VERSION,
            },
            // The shape was within its limits.
            _ => BuildError::NoMemory,
        }
    }
}
