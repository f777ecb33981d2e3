//! Each exit status, with the text on standard output and standard error.
use crate::exec::{Console, exec};
use crate::progress::ProgressLine;
use crate::report::Report;
use crate::threads::{Crew, Outfit, count_on_threads};
use jc_cache::{CacheLoader, CacheWriter, EntryProcessor, Value};
use jc_commands::plan::Plan;
use jc_explore::{Unwatched, Watch};
use jc_shell::Save;
use jc_store::{Increment, SharedStore, Store};
use jc_text::Noted;
use std::alloc::{AllocError, Global};
use std::cell::Cell;
use std::io;
use std::process::Abort;

/// A value in a box, as this trait object.
macro_rules! boxed {
    ($rt:expr, $kind:ty, $inner:expr) => {{
        let inner: $kind = Box::new($rt.alloc(), $inner).ok().expect(&$rt, "memory");
        inner
    }};
}

/// The expected end of a command line.
#[derive(Clone, Copy)]
struct Wanted<'a> {
    status: u8,
    out: &'a str,
    err: &'a str,
}

/// The words of a command line, which single spaces separate.
fn words(rt: &impl Abort, alloc: Global, text: &str) -> Vec<String> {
    let mut all = Vec::new(alloc);
    for word in text.split(' ') {
        let word = format!(in alloc; "{word}").expect(rt, "memory");
        all.push(word).expect(rt, "memory");
    }
    all
}

/// A folder that keeps each name with its script, and has no room for a script named `full`.
#[derive(Drop)]
struct Folder(Vec<u8>);

impl Save for Folder {
    ghost calls = { ? };

    fn save(&mut self, name: &[u8], script: &[u8]) -> Result<(), &'static str> {
        if name == b"full".as_slice() {
            return Err("no room");
        }
        match self.put(name, script) {
            Ok(()) => Ok(()),
            Err(_) => Err("out of memory"),
        }
    }
}

impl Folder {
    fn put(&mut self, name: &[u8], script: &[u8]) -> Result<(), AllocError> {
        self.0.extend_from_slice(name)?;
        self.0.push(b'\n')?;
        self.0.extend_from_slice(script)
    }
}

/// Standard error, no watch, no prompt, and an empty folder.
fn unwatched(alloc: Global) -> Console<'static, Vec<u8>, Unwatched, Folder> {
    Console {
        err: Vec::new(alloc),
        watch: Unwatched,
        prompt: "",
        saves: Folder(Vec::new(alloc)),
    }
}

/// Carries out the task of these words, with this script on standard input.
fn ends<F: FnOnce(&Plan) -> Result<Report, AllocError>>(
    rt: &impl Abort,
    alloc: Global,
    count: F,
    text: &str,
    script: &[u8],
    wanted: Wanted<'_>,
) {
    let mut out = Vec::new(alloc);
    let mut console = unwatched(alloc);
    let status = exec(
        alloc,
        count,
        Ok(words(rt, alloc, text)),
        &mut Noted::new(script),
        &mut Noted::new(&mut out),
        &mut console,
    );
    assert_eq!(rt; status, wanted.status, "{text}");
    assert_eq!(rt; out.as_slice(), wanted.out.as_bytes(), "{text}");
    assert_eq!(rt; console.err.as_slice(), wanted.err.as_bytes(), "{text}");
}

/// As [`ends`], for words that don't let threads count.
fn ends_alone(rt: &impl Abort, alloc: Global, text: &str, script: &[u8], wanted: Wanted<'_>) {
    let count = |plan: &Plan| -> Result<Report, AllocError> { Err(AllocError) };
    ends(rt, alloc, count, text, script, wanted);
}

#[test]
fn plays_a_script(rt: HostRuntime) {
    ends_alone(
        &rt,
        rt.alloc(),
        "jcache run",
        b"open 1 2 100\nbegin 1 s1 put a 1\n",
        Wanted {
            status: 0,
            out: "open\n1 a is ok at 0.0\n",
            err: "",
        },
    );
}

#[test]
fn tells_a_fault(rt: HostRuntime) {
    ends_alone(
        &rt,
        rt.alloc(),
        "jcache run",
        b"open 1 2 100 read\nbegin 1 s1 get a\nend 1\n",
        Wanted {
            status: 1,
            out: "open\n1 a load\nline 3: not now\n",
            err: "jcache: line 3, column 1: not now 'end' (it fits if the call has a started key, and waits for no loader, writer or processor)\n",
        },
    );
}

/// Answers these lines with a prompt, to the end of the input.
fn answers(
    rt: &impl Abort,
    alloc: Global,
    input: &[u8],
    shown: &str,
    console: &mut Console<'_, Vec<u8>, Unwatched, Folder>,
) {
    let count = |plan: &Plan| -> Result<Report, AllocError> { Err(AllocError) };
    let mut out = Vec::new(alloc);
    console.prompt = "> ";
    let status = exec(
        alloc,
        count,
        Ok(words(rt, alloc, "jcache shell")),
        &mut Noted::new(input),
        &mut Noted::new(&mut out),
        console,
    );
    assert_eq!(rt; status, 0);
    assert_eq!(rt; out.as_slice(), shown.as_bytes());
    assert_eq!(rt; console.err.len(), 0);
}

#[test]
fn answers_lines(rt: HostRuntime) {
    let mut console = unwatched(rt.alloc());
    let input =
        b"open 1 2 100\nend 1\nbegin 1 s1 put a 1\nsave full\nsave here\nquit\naudit\n".as_slice();
    let shown =
        "> open\n> line 2, column 5: no such call '1'\n> 1 a is ok at 0.0\n> not saved full: no room\n> saved here\n> ";
    answers(&rt, rt.alloc(), input, shown, &mut console);
    let saved = b"here\nopen 1 2 100\nbegin 1 s1 put a 1\n";
    assert_eq!(&rt; console.saves.0.as_slice(), saved.as_slice());
}

#[test]
fn ends_the_line_of_the_last_prompt(rt: HostRuntime) {
    let mut console = unwatched(rt.alloc());
    answers(
        &rt,
        rt.alloc(),
        b"open 1 2 100\n",
        "> open\n> \n",
        &mut console,
    );
}

/// A person who types a text only once the answer before it is shown, as far as the number of bytes on the screen tells.
#[derive(Drop)]
struct Typist<'a> {
    /// Answers, each with the text that is typed after it.
    turns: &'a [(&'a str, &'a str)],
    due: usize,
    shown: &'a Cell<usize>,
}

impl io::Read for Typist<'_> {
    fn read(&mut self, buf: &mut [u8]) -> io::Result<usize> {
        let Some(((answer, text), others)) = self.turns.split_first() else {
            return Ok(0);
        };
        self.due += answer.len();
        if self.shown.get() != self.due {
            return Err(io::Error::from(io::ErrorKind::TimedOut));
        }
        self.turns = others;
        buf[..text.len()].copy_from_slice(text.as_bytes());
        Ok(text.len())
    }
}

/// A screen that counts the bytes that are shown.
#[derive(Drop)]
struct Screen<'a>(&'a Cell<usize>);

impl io::Write for Screen<'_> {
    fn write(&mut self, buf: &[u8]) -> io::Result<usize> {
        self.0.set(self.0.get() + buf.len());
        Ok(buf.len())
    }

    fn flush(&mut self) -> io::Result<()> {
        Ok(())
    }
}

#[test]
fn answers_each_line_before_it_reads_more(rt: HostRuntime) {
    let alloc = rt.alloc();
    let mut console = unwatched(alloc);
    let count = |plan: &Plan| -> Result<Report, AllocError> { Err(AllocError) };
    let shown = Cell::new(0);
    // Two lines come at once, and one in two parts.
    let turns = [
        ("", "open 1 2 100\n"),
        ("open\n", "begin 1 s1 put a 1\nbegin 2 s1 get a\n"),
        ("1 a is ok at 0.0\n2 a is 1 at 0.1\n", "begin 3"),
        ("", " s1 get b\n"),
    ];
    let typist = Typist {
        turns: &turns,
        due: 0,
        shown: &shown,
    };
    let status = exec(
        alloc,
        count,
        Ok(words(&rt, alloc, "jcache shell")),
        &mut Noted::new(typist),
        &mut Noted::new(Screen(&shown)),
        &mut console,
    );
    assert_eq!(&rt; status, 0);
}

/// A program of threads with one outcome and two states, and the beginning of the answer.
const PROGRAM: &str = "open 1 2 100\nthread\nget a\n";

const ANSWER: &str =
    "outcome 1\n1.1 get a: -\ncache\nstore\ncoherent\n| open 1 2 100\n| begin 1 s1 get a\n| audit\nall outcomes: 1 of 2 states\n";

/// Explores this program with one more expectation.
fn expects(rt: &impl Abort, alloc: Global, expectation: &str, status: u8, verdict: &str) {
    let program = format!(in alloc; "{PROGRAM}{expectation}\n").expect(rt, "memory");
    let answer = format!(in alloc; "{ANSWER}{expectation}: {verdict}\n").expect(rt, "memory");
    let wanted = Wanted {
        status,
        out: &answer,
        err: "",
    };
    ends_alone(rt, alloc, "jcache explore", program.as_bytes(), wanted);
}

#[test]
fn explores_a_program(rt: HostRuntime) {
    expects(&rt, rt.alloc(), "always 1.1=-", 0, "holds");
    expects(&rt, rt.alloc(), "never 1.1=-", 5, "fails, outcome 1");
}

#[test]
fn stops_after_its_states(rt: HostRuntime) {
    let wanted = Wanted {
        status: 6,
        out: "stopped after 1 states\n",
        err: "",
    };
    let words = "jcache explore --states 1";
    ends_alone(&rt, rt.alloc(), words, PROGRAM.as_bytes(), wanted);
}

/// A watch that keeps the last numbers that it was told, how often it was told some, and how many searches are over.
#[derive(Drop)]
struct Told {
    numbers: (u64, u64, u64),
    times: u64,
    ends: u64,
}

impl Watch for Told {
    ghost told = { ? };

    fn on_states(&mut self, followed: u64, known: u64, found: u64) {
        self.numbers = (followed, known, found);
        self.times = self.times.saturating_add(1);
    }

    fn on_end(&mut self) {
        self.ends = self.ends.saturating_add(1);
    }
}

/// Asserts what a watch is told for these words, with this text on standard input: the last numbers, how often, and how many
/// searches are over.
fn is_told(
    rt: &impl Abort,
    alloc: Global,
    text: &str,
    input: &[u8],
    wanted: ((u64, u64, u64), u64, u64),
) {
    let count = |plan: &Plan| -> Result<Report, AllocError> { Err(AllocError) };
    let mut out = Vec::new(alloc);
    let mut console = Console {
        err: Vec::new(alloc),
        watch: Told {
            numbers: (0, 0, 0),
            times: 0,
            ends: 0,
        },
        prompt: "",
        saves: Folder(Vec::new(alloc)),
    };
    let _status = exec(
        alloc,
        count,
        Ok(words(rt, alloc, text)),
        &mut Noted::new(input),
        &mut Noted::new(&mut out),
        &mut console,
    );
    let told = &console.watch;
    let found = (told.numbers, told.times, told.ends);
    assert!(rt; found == wanted, "{text}");
}

#[test]
fn tells_how_far_a_search_is(rt: HostRuntime) {
    let alloc = rt.alloc();
    let program = PROGRAM.as_bytes();
    is_told(&rt, alloc, "jcache explore", program, ((1, 2, 0), 2, 1));
    let one_state = "jcache explore --states 1";
    is_told(&rt, alloc, one_state, program, ((0, 1, 0), 1, 1));
    is_told(&rt, alloc, "jcache explore", b"get a\n", ((0, 0, 0), 0, 0));
    is_told(
        &rt,
        alloc,
        "jcache run",
        b"open 1 2 100\n",
        ((0, 0, 0), 0, 0),
    );
}

/// Asserts what a line of progress writes during a search, in which it is told of each state from the first one on.
fn shows(rt: &impl Abort, alloc: Global, is_terminal: bool, states: u64, wanted: &str) {
    let mut text = Vec::new(alloc);
    let mut line = ProgressLine::new(&mut text, is_terminal);
    for followed in 0..states {
        line.on_states(followed, states, 3);
    }
    line.on_end();
    assert_eq!(rt; text.as_slice(), wanted.as_bytes());
}

#[test]
fn shows_a_line_of_progress(rt: HostRuntime) {
    let alloc = rt.alloc();
    let erased = "\r                                                            \r";
    let text = format!(in alloc;
        "\r4096 of 8193 states followed, 3 outcomes\r8192 of 8193 states followed, 3 outcomes{erased}"
    ).expect(&rt, "memory");
    shows(&rt, alloc, true, 8193, &text);
    shows(&rt, alloc, true, 4096, "");
    shows(&rt, alloc, false, 8193, "");
}

/// What standard error says of an item before the first thread.
const NO_THREAD: &str =
    "jcache: line 3, column 1: no thread 'get' (a line thread begins the first thread, and items follow it)\n";

#[test]
fn warns_of_values_that_nobody_writes(rt: HostRuntime) {
    let wanted = Wanted {
        status: 5,
        out: "outcome 1\ncache\nstore\ncoherent\n| open 1 2 100\n| audit\nall outcomes: 1 of 1 states\nsometimes cache.a=1 store.b=2: fails\n",
        err: "jcache: warning: no line sets or writes the value 1: sometimes cache.a=1 store.b=2\njcache: warning: no line sets or writes the value 2: sometimes cache.a=1 store.b=2\n",
    };
    let program = b"open 1 2 100\nsometimes cache.a=1 store.b=2\n";
    ends_alone(&rt, rt.alloc(), "jcache explore", program, wanted);
}

#[test]
fn tells_a_fault_of_a_program(rt: HostRuntime) {
    let wanted = Wanted {
        status: 1,
        out: "line 3: no thread\n",
        err: NO_THREAD,
    };
    let program = b"open 1 2 100\n# a comment\nget a\n";
    ends_alone(&rt, rt.alloc(), "jcache explore", program, wanted);
}

#[test]
fn refuses_too_much_work(rt: HostRuntime) {
    ends_alone(
        &rt,
        rt.alloc(),
        "jcache threads --workers 7 --rounds 10000",
        b"",
        Wanted {
            status: 2,
            out: "",
            err: "jcache: too much work: 7 times 10000 is over 60000; with --history NUMBER there is no such limit\n",
        },
    );
}

#[test]
fn shows_the_version(rt: HostRuntime) {
    ends_alone(
        &rt,
        rt.alloc(),
        "jcache --version",
        b"",
        Wanted {
            status: 0,
            out: "jcache 0.2.0\n",
            err: "",
        },
    );
}

/// A stream that fails with this kind of error.
#[derive(Drop)]
struct Broken(io::ErrorKind);

impl io::Read for Broken {
    fn read(&mut self, _buf: &mut [u8]) -> io::Result<usize> {
        Err(io::Error::from(self.0))
    }
}

impl io::Write for Broken {
    fn write(&mut self, _buf: &[u8]) -> io::Result<usize> {
        Err(io::Error::from(self.0))
    }

    fn flush(&mut self) -> io::Result<()> {
        Ok(())
    }
}

#[test]
fn says_why_a_read_failed(rt: HostRuntime) {
    let alloc = rt.alloc();
    let (mut out, mut console) = (Vec::new(alloc), unwatched(alloc));
    let count = |plan: &Plan| -> Result<Report, AllocError> { Err(AllocError) };
    let status = exec(
        alloc,
        count,
        Ok(words(&rt, alloc, "jcache run")),
        &mut Noted::new(Broken(io::ErrorKind::IsADirectory)),
        &mut Noted::new(&mut out),
        &mut console,
    );
    assert_eq!(&rt; status, 3);
    assert_eq!(&rt; out.len(), 0);
    let said = "jcache: read failed: is a directory\n";
    assert_eq!(&rt; console.err.as_slice(), said.as_bytes());
}

/// Shows the version on a standard output that fails with this kind of error.
fn write_fails(rt: &impl Abort, alloc: Global, why: io::ErrorKind, said: &str) {
    let mut console = unwatched(alloc);
    let count = |plan: &Plan| -> Result<Report, AllocError> { Err(AllocError) };
    let status = exec(
        alloc,
        count,
        Ok(words(rt, alloc, "jcache --version")),
        &mut Noted::new(io::empty()),
        &mut Noted::new(Broken(why)),
        &mut console,
    );
    assert_eq!(rt; status, 3, "{said}");
    assert_eq!(rt; console.err.as_slice(), said.as_bytes(), "{said}");
}

#[test]
fn says_why_a_write_failed(rt: HostRuntime) {
    let full = "jcache: write failed: no storage space\n";
    write_fails(&rt, rt.alloc(), io::ErrorKind::StorageFull, full);
}

#[test]
fn says_nothing_to_a_closed_pipe(rt: HostRuntime) {
    write_fails(&rt, rt.alloc(), io::ErrorKind::BrokenPipe, "");
}

/// The command line without its words.
fn has_no_words(rt: &impl Abort, alloc: Global, why: io::ErrorKind, status: u8, said: &str) {
    let (mut out, mut console) = (Vec::new(alloc), unwatched(alloc));
    let count = |plan: &Plan| -> Result<Report, AllocError> { Err(AllocError) };
    let found = exec(
        alloc,
        count,
        Err(io::Error::from(why)),
        &mut Noted::new(io::empty()),
        &mut Noted::new(&mut out),
        &mut console,
    );
    assert_eq!(rt; found, status, "{said}");
    assert_eq!(rt; out.len(), 0, "{said}");
    assert_eq!(rt; console.err.as_slice(), said.as_bytes(), "{said}");
}

#[test]
fn needs_its_words(rt: HostRuntime) {
    let alloc = rt.alloc();
    has_no_words(
        &rt,
        alloc,
        io::ErrorKind::OutOfMemory,
        4,
        "jcache: out of memory\n",
    );
    let unknown = "jcache: a word of the command line isn't UTF-8\n";
    has_no_words(&rt, alloc, io::ErrorKind::InvalidData, 2, unknown);
}

/// The words of most tests of a count.
const FOUR: &str = "jcache threads --workers 4 --rounds 100";

#[test]
fn ends_where_threads_have_no_memory(rt: HostRuntime) {
    let wanted = Wanted {
        status: 4,
        out: "",
        err: "jcache: out of memory\n",
    };
    ends_alone(&rt, rt.alloc(), FOUR, b"", wanted);
}

#[test]
fn counts_on_threads(rt: HostRuntime) {
    let alloc = rt.alloc();
    let store = SharedStore::new(alloc, Store::new(alloc)).expect(&rt, "memory");
    let mut outfits = Vec::new(alloc);
    for _ in 0..5 {
        let loader =
            boxed!(rt, Box<dyn CacheLoader + Send + Drop>, store.loader(rt).expect(&rt, "memory"));
        let writer =
            boxed!(rt, Box<dyn CacheWriter + Send + Drop>, store.writer(rt).expect(&rt, "memory"));
        let increment = boxed!(rt, Box<dyn EntryProcessor + Send + Drop>, Increment);
        let outfit = Outfit {
            loader,
            writer,
            increment,
        };
        outfits.push(outfit).expect(&rt, "memory");
    }
    let crew = Crew { store, outfits };
    let count = move |plan: &Plan| -> Result<Report, AllocError> {
        count_on_threads(&rt, alloc, crew, plan)
    };
    let wanted = Wanted {
        status: 0,
        out: "workers 4 rounds 100\ncounter 400\nstore 400\nown 100 100 100 100\nlegal true\n",
        err: "",
    };
    ends(&rt, alloc, count, FOUR, b"", wanted);
}

/// A report on a plan with one worker, in which the cache counts one more than the store.
fn false_report(alloc: Global, plan: &Plan) -> Result<Report, AllocError> {
    let (Ok(counter), Ok(store)) = (Value::new(b"2"), Value::new(b"1")) else {
        return Err(AllocError);
    };
    if plan.workers != 1 || plan.rounds < 1 {
        return Err(AllocError);
    }
    let mut own = Vec::new(alloc);
    own.push(1)?;
    Ok(Report {
        plan: *plan,
        counter: Some(counter),
        store: Some(store),
        own,
        legal: true,
    })
}

#[test]
fn tells_a_wrong_count(rt: HostRuntime) {
    let alloc = rt.alloc();
    let count = move |plan: &Plan| -> Result<Report, AllocError> { false_report(alloc, plan) };
    let wanted = Wanted {
        status: 5,
        out: "workers 1 rounds 1\ncounter 2\nstore 1\nown 1\nlegal true\n",
        err: "",
    };
    let text = "jcache threads --workers 1 --rounds 1";
    ends(&rt, alloc, count, text, b"", wanted);
}
