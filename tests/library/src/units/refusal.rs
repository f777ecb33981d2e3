//! Refusals, by name and as texts.
use super::is;
use jc_types::{Field, Refusal};

// The name of each refusal, and its text.
const TEXTS: &str = "\
HistoryFull: the history has no room for this call
Busy: another call is at work on this key
TooManyInFlight: too many calls of this stripe are at work outside
TooManyJoiners: too many calls of this stripe have joined a load
LoaderFailed: the cache loader failed with code 7
WriterFailed: the cache writer failed with code 0
ProcessorFailed: the entry processor failed with code 4294967295
OutOfMemory: there is no memory for this call
TooManyKeys: the bulk call names too many keys
BadConfig: the field `stripes` of the configuration is out of its limits
BadConfig: the field `capacity` of the configuration is out of its limits
BadConfig: the field `history` of the configuration is out of its limits
NoLoader: a session of a read-through cache needs a loader
NoWriter: a session of a write-through cache needs a writer
TooManySessions: the cache has handed out all of its sessions
StillReserved: the cache is in use and can't be closed
RepeatedKey: a key is there twice in the closed cache
";

const REFUSALS: [Refusal; 17] = [
    Refusal::HistoryFull,
    Refusal::Busy,
    Refusal::TooManyInFlight,
    Refusal::TooManyJoiners,
    Refusal::LoaderFailed(7),
    Refusal::WriterFailed(0),
    Refusal::ProcessorFailed(u32::MAX),
    Refusal::OutOfMemory,
    Refusal::TooManyKeys,
    Refusal::BadConfig(Field::Stripes),
    Refusal::BadConfig(Field::Capacity),
    Refusal::BadConfig(Field::History),
    Refusal::NoLoader,
    Refusal::NoWriter,
    Refusal::TooManySessions,
    Refusal::StillReserved,
    Refusal::RepeatedKey,
];

#[test]
fn names_and_explains_each_refusal(rt: HostRuntime) {
    let mut lines = TEXTS.lines();
    for refusal in REFUSALS {
        let name = refusal.name();
        let found = format!(in rt.alloc(); "{name}: {refusal}").expect(&rt, "memory");
        is(&rt, name, Some(found.as_str()), lines.next());
    }
    is(&rt, "the end", lines.next(), None);
}
