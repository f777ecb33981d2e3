//! The counts of each operation, by the entry that it found, the outside answers and its reply.
use super::is;
use super::script::event;
use jc_model::Statistics;
use std::process::Abort;

// Whether the key had an entry before, an event in the words of `script`, and the counts that it adds to.
const COUNTS: &str = "\
there: 1 s1 get a, is 1 = hit
missing: 1 s1 get a, is - = miss
missing: 1 s1 get a, read 1, is 1 = miss
missing: 1 s1 get a, read -, is - = miss
missing: 1 s1 get a, readfail 3, is LoaderFailed 3 = miss
there: 1 s1 get a, read 1, is 1 shared 0 = miss
there: 1 s1 contains a, is true = nothing
missing: 1 s1 contains a, is false = nothing
there: 1 s1 put a 1, is ok = put
missing: 1 s1 put a 1, apply, is ok = put
there: 1 s1 put a 1, applyfail 3, is WriterFailed 3 = nothing
there: 1 s1 getput a 2, is 1 = hit put
missing: 1 s1 getput a 2, is - = miss put
there: 1 s1 getput a 2, applyfail 3, is WriterFailed 3 = nothing
missing: 1 s1 putif a 2, is true = miss put
there: 1 s1 putif a 2, is false = hit
there: 1 s1 remove a, is true = removal
missing: 1 s1 remove a, is false = nothing
there: 1 s1 removeif a 1, is true = hit removal
there: 1 s1 removeif a 1, is false = hit
missing: 1 s1 removeif a 1, is false = miss
there: 1 s1 removeif a 1, applyfail 3, is WriterFailed 3 = nothing
there: 1 s1 getremove a, is 1 = hit removal
missing: 1 s1 getremove a, is - = miss
there: 1 s1 replace a 2, is true = hit put
missing: 1 s1 replace a 2, is false = miss
there: 1 s1 replaceif a 1 2, is true = hit put
there: 1 s1 replaceif a 1 2, is false = hit
missing: 1 s1 replaceif a 1 2, is false = miss
there: 1 s1 replaceif a 1 2, applyfail 3, is WriterFailed 3 = nothing
there: 1 s1 getreplace a 2, is 1 = hit put
missing: 1 s1 getreplace a 2, is - = miss
there: 1 s1 clear a, is ok = nothing
missing: 1 s1 loadall a, read 1, is ok = nothing
missing: 1 s1 invoke a, sets 1, is - = miss put
there: 1 s1 invoke a, removes, is 1 = hit removal
there: 1 s1 invoke a, keeps, is 1 = hit
there: 1 s1 invoke a, sets 1, is WriterFailed 3 = hit
missing: 1 s1 invoke a, keeps, is ProcessorFailed 3 = miss
there: evict a full = eviction
there: evict a memory = eviction
";

/// Counts with one for each of these words.
fn counted(rt: &impl Abort, words: &str) -> Statistics {
    let mut counted = Statistics::new();
    for word in words.split(' ') {
        match word {
            "hit" => counted.hits = 1,
            "miss" => counted.misses = 1,
            "put" => counted.puts = 1,
            "removal" => counted.removals = 1,
            "eviction" => counted.evictions = 1,
            _ => assert_eq!(rt; word, "nothing"),
        }
    }
    counted
}

#[test]
fn counts_by_operation(rt: HostRuntime) {
    for line in COUNTS.lines() {
        let (before, rest) = line.split_once(": ").expect(&rt, line);
        let (text, words) = rest.split_once(" = ").expect(&rt, line);
        let statistics = Statistics::new().with_event(before == "there", &event(&rt, text));
        is(&rt, line, statistics, counted(&rt, words));
    }
}

#[test]
fn counts_together_up_to_the_last_number(rt: HostRuntime) {
    let most = Statistics {
        hits: u64::MAX,
        ..counted(&rt, "miss put")
    };
    let twice = most.together(&most);
    is(&rt, "hits", twice.hits, u64::MAX);
    is(&rt, "misses", twice.misses, 2);
    is(&rt, "evictions", twice.evictions, 0);
    is(&rt, "one more hit", most.with_hit(), most);
    is(&rt, "gets", most.gets(), u64::MAX);
    is(&rt, "gets of few", counted(&rt, "hit miss").gets(), 2);
}
