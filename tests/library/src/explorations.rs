//! Small programs, with the numbers of their states and of their final states. The numbers are those of a prototype in another language,
//! which has no code in common with this.
use jc_explore::{ExploreFault, Explored, Faults, Item, Program, Unwatched, Watch, explore};
use jc_model::{EntryCall, Op};
use jc_types::{Config, Field, Key, Refusal, SESSIONS_MAX, Value};
use jc_world::EntryCalls;
use std::alloc::Global;
use std::process::Abort;

/// A program and its numbers. An item is a letter, a key, and its further words: `ga` gets, `pa2` puts, `ra` removes, `ca12`
/// replaces 1 by 2, `ia5` invokes a processor that gets and then sets 5, `fa8` is another program's write. `/` begins a thread.
struct Case {
    items: &'static str,
    stored: &'static str,
    stripes: usize,
    faults: Faults,
    states: u64,
    found: usize,
}

const NO_FAULTS: Faults = Faults {
    load: None,
    write: None,
    lie: None,
    process: None,
};

const NINE_FAILS: Faults = Faults {
    load: None,
    write: Some(9),
    lie: None,
    process: None,
};

const NINE_LIES: Faults = Faults {
    load: None,
    write: None,
    lie: Some(9),
    process: None,
};

fn key_of(rt: &impl Abort, name: &[u8]) -> Key {
    Key::new(name).expect(rt, "a key")
}

fn value_of(rt: &impl Abort, name: &[u8]) -> Value {
    Value::new(name).expect(rt, "a value")
}

fn processor(rt: &impl Abort, alloc: Global, name: &[u8]) -> EntryCalls {
    let mut calls = EntryCalls::new(alloc);
    calls.push(EntryCall::GetValue).expect(rt, "memory");
    let value = value_of(rt, name);
    calls.push(EntryCall::SetValue(value)).expect(rt, "memory");
    calls
}

/// The letter at a place of a word, as bytes; no bytes after its end.
fn letter(word: &[u8], at: usize) -> &[u8] {
    if at < word.len() {
        &word[at..at + 1]
    } else {
        &word[..0]
    }
}

/// The kind of a word: its first letter.
fn kind(word: &[u8]) -> u8 {
    match word.first() {
        Some(first) => *first,
        None => b'g',
    }
}

fn op_of(rt: &impl Abort, word: &[u8]) -> Op {
    match kind(word) {
        b'p' => Op::Put(value_of(rt, letter(word, 2))),
        b'r' => Op::Remove,
        b'c' => Op::ReplaceIf {
            old: value_of(rt, letter(word, 2)),
            new: value_of(rt, letter(word, 3)),
        },
        _ => Op::Get,
    }
}

fn item_of(rt: &impl Abort, alloc: Global, word: &[u8]) -> Item {
    let key = key_of(rt, letter(word, 1));
    match kind(word) {
        b'f' => Item::Foreign {
            key,
            value: Some(value_of(rt, letter(word, 2))),
        },
        b'i' => Item::Invoke {
            key,
            calls: processor(rt, alloc, letter(word, 2)),
        },
        _ => Item::Call {
            op: op_of(rt, word),
            key,
        },
    }
}

fn threads_of(rt: &impl Abort, alloc: Global, items: &str) -> Vec<Vec<Item>> {
    let mut threads = Vec::new(alloc);
    let mut thread = Vec::new(alloc);
    for word in items.split(' ') {
        if word == "/" {
            threads.push(thread).expect(rt, "memory");
            thread = Vec::new(alloc);
        } else {
            thread
                .push(item_of(rt, alloc, word.as_bytes()))
                .expect(rt, "memory");
        }
    }
    threads.push(thread).expect(rt, "memory");
    threads
}

fn shape(stripes: usize) -> Config {
    Config {
        stripes,
        capacity: 4,
        history: 200,
        read_through: true,
        write_through: true,
    }
}

fn program_of(rt: &impl Abort, alloc: Global, case: &Case) -> Program {
    let mut stored = Vec::new(alloc);
    let entry = (key_of(rt, b"a"), value_of(rt, case.stored.as_bytes()));
    stored.push(entry).expect(rt, "memory");
    Program {
        config: shape(case.stripes),
        stored,
        threads: threads_of(rt, alloc, case.items),
        faults: case.faults,
    }
}

fn explored(rt: &impl Abort, alloc: Global, case: &Case, states: usize) -> Explored {
    let program = program_of(rt, alloc, case);
    match explore(alloc, &program, states, &mut Unwatched) {
        Ok(explored) => explored,
        Err(_) => panic!(rt; "it is explored"),
    }
}

fn has_numbers(rt: &impl Abort, alloc: Global, case: &Case) {
    let explored = explored(rt, alloc, case, 20_000);
    assert!(rt; explored.is_whole, "{} is whole", case.items);
    assert_eq!(rt;
        explored.found.len(),
        case.found,
        "final states of {}",
        case.items
    );
    assert_eq!(rt; explored.states, case.states, "states of {}", case.items);
}

const CASES: &[Case] = &[
    Case {
        items: "ga pa2 / ga ga",
        stored: "1",
        stripes: 1,
        faults: NO_FAULTS,
        states: 38,
        found: 3,
    },
    Case {
        items: "ga / ga",
        stored: "1",
        stripes: 1,
        faults: NO_FAULTS,
        states: 14,
        found: 1,
    },
    Case {
        items: "pa2 / ra",
        stored: "1",
        stripes: 1,
        faults: NO_FAULTS,
        states: 13,
        found: 2,
    },
    Case {
        items: "ga ga / fa8",
        stored: "1",
        stripes: 1,
        faults: NO_FAULTS,
        states: 15,
        found: 2,
    },
    Case {
        items: "ga pa2 / ga ga",
        stored: "1",
        stripes: 1,
        faults: NINE_FAILS,
        states: 49,
        found: 4,
    },
    Case {
        items: "ga pa2 / ga",
        stored: "1",
        stripes: 1,
        faults: NINE_LIES,
        states: 33,
        found: 3,
    },
    Case {
        items: "ga pa1 / ga pa2",
        stored: "0",
        stripes: 1,
        faults: NO_FAULTS,
        states: 50,
        found: 4,
    },
    Case {
        items: "ga ca01 / ga ca02",
        stored: "0",
        stripes: 1,
        faults: NO_FAULTS,
        states: 42,
        found: 4,
    },
    Case {
        items: "ga pa1 / ga pa2 / ga ra",
        stored: "0",
        stripes: 1,
        faults: NO_FAULTS,
        states: 559,
        found: 27,
    },
    Case {
        items: "ga / pa1 / gb / ra",
        stored: "0",
        stripes: 2,
        faults: NO_FAULTS,
        states: 392,
        found: 6,
    },
    Case {
        items: "ga pa1 gb pb1 / pb2 ga pa2 gb",
        stored: "0",
        stripes: 2,
        faults: NO_FAULTS,
        states: 298,
        found: 11,
    },
];

const PROCESSORS: &[Case] = &[
    Case {
        items: "ia5 / pa2",
        stored: "1",
        stripes: 1,
        faults: NO_FAULTS,
        states: 15,
        found: 2,
    },
    Case {
        items: "ia1 / ia2",
        stored: "0",
        stripes: 1,
        faults: NO_FAULTS,
        states: 17,
        found: 2,
    },
];

#[test]
fn finds_each_final_state(rt: HostRuntime) {
    for case in CASES {
        has_numbers(&rt, rt.alloc(), case);
    }
}

#[test]
fn runs_processors(rt: HostRuntime) {
    for case in PROCESSORS {
        has_numbers(&rt, rt.alloc(), case);
    }
}

#[test]
fn stops_at_its_budget(rt: HostRuntime) {
    let alloc = rt.alloc();
    let case = &CASES[0];
    let whole = explored(&rt, alloc, case, 38);
    assert!(rt;
        whole.is_whole && whole.states == 38,
        "each state is followed"
    );
    let cut = explored(&rt, alloc, case, 37);
    assert!(rt; !cut.is_whole && cut.states == 38, "one is not");
    let none = explored(&rt, alloc, case, 0);
    assert!(rt; !none.is_whole && none.found.len() == 0, "none is");
}

/// A watch that checks that it is told of the states in their order, and that counts them and the ends of searches.
#[derive(Drop)]
struct Told {
    states: u64,
    is_in_order: bool,
    ends: u64,
}

impl Watch for Told {
    ghost told = { ? };

    fn on_states(&mut self, followed: u64, known: u64, _found: u64) {
        self.is_in_order &= followed == self.states && followed < known && self.ends == 0;
        self.states = self.states.saturating_add(1);
    }

    fn on_end(&mut self) {
        self.ends = self.ends.saturating_add(1);
    }
}

#[test]
fn tells_of_each_state(rt: HostRuntime) {
    let alloc = rt.alloc();
    let program = program_of(&rt, alloc, &CASES[0]);
    let mut told = Told {
        states: 0,
        is_in_order: true,
        ends: 0,
    };
    let explored = explore(alloc, &program, 1000, &mut told);
    assert!(&rt; explored.is_ok(), "it is explored");
    assert!(&rt;
        told.is_in_order && told.states == 38 && told.ends == 1,
        "each state is told of once"
    );
}

#[test]
fn refuses_programs(rt: HostRuntime) {
    let alloc = rt.alloc();
    let mut program = program_of(&rt, alloc, &CASES[1]);
    for _thread in 2..SESSIONS_MAX {
        program.threads.push(Vec::new(alloc)).expect(&rt, "memory");
    }
    assert!(rt;
        explore(alloc, &program, 1000, &mut Unwatched).is_ok(),
        "each thread has a session"
    );
    program.threads.push(Vec::new(alloc)).expect(&rt, "memory");
    let refused = matches!(
        explore(alloc, &program, 1000, &mut Unwatched),
        Err(ExploreFault::TooManyThreads)
    );
    assert!(rt; refused, "one has none");
    let mut shapeless = program_of(&rt, alloc, &CASES[1]);
    shapeless.config.stripes = 0;
    let fault = ExploreFault::BadConfig(Refusal::BadConfig(Field::Stripes));
    let refused =
        matches!(explore(alloc, &shapeless, 1000, &mut Unwatched), Err(other) if other == fault);
    assert!(rt; refused, "no cache has such a shape");
}
