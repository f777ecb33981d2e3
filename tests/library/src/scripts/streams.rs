//! Streams that fail at each read and at each write in turn, and a script that is cut after each byte.
use super::is;
use jc_script::run::run;
use jc_script::{RunEnd, RunFault};
use jc_text::Noted;
use std::alloc::Global;
use std::io;
use std::process::Abort;

/// A script: each line with its output, if any, after `->`, with `/` between two lines.
const RUN: &str = "\
open 1 2 100 read write -> open
set a 1
begin 1 s1 get a -> 1 a load
read 1 -> 1 a reads 1
end 1 -> 1 a is 1 at 0.0
begin 2 s1 put a 2 -> 2 a write 2
apply 2 -> 2 a written
begin 3 s2 get a -> 3 a is 1 at 0.1
audit -> cache a=1 / store a=2 / coherent / history 2 legal
end 2 -> 2 a is ok at 0.2
begin 4 s2 get a -> 4 a is 2 at 0.3
audit -> cache a=2 / store a=2 / coherent / history 4 legal
";

/// The number of bytes that a stream gives or takes at a time.
const STEP: usize = 7;

fn add_line(rt: &impl Abort, all: &mut Vec<u8>, text: &str) {
    all.extend_from_slice(text.as_bytes()).expect(rt, "memory");
    all.push(b'\n').expect(rt, "memory");
}

/// A line of the script, and its output.
fn parts(line: &str) -> (&str, &str) {
    line.split_once(" -> ").unwrap_or((line, ""))
}

/// The script.
fn script(rt: &impl Abort, alloc: Global) -> Vec<u8> {
    let mut all = Vec::new(alloc);
    for line in RUN.lines() {
        add_line(rt, &mut all, parts(line).0);
    }
    all
}

fn add_lines(rt: &impl Abort, all: &mut Vec<u8>, printed: &str) {
    for text in printed.split(" / ") {
        add_line(rt, all, text);
    }
}

/// The output of the first `lines` lines of the script.
fn printed(rt: &impl Abort, alloc: Global, lines: usize) -> Vec<u8> {
    let mut all = Vec::new(alloc);
    for line in RUN.lines().take(lines) {
        let text = parts(line).1;
        if !text.is_empty() {
            add_lines(rt, &mut all, text);
        }
    }
    all
}

/// The output of the whole script.
fn transcript(rt: &impl Abort, alloc: Global) -> Vec<u8> {
    printed(rt, alloc, RUN.lines().count())
}

// Cuts.

/// Plays a script of whole lines, and asserts its end and its output.
fn plays(rt: &impl Abort, alloc: Global, script: &[u8], end: RunEnd, wanted: &[u8]) {
    let mut found = Vec::new(alloc);
    let ended = run(
        alloc,
        &mut Noted::new(script),
        &mut Noted::new(&mut found),
        &mut Vec::new(alloc),
    );
    is(rt, "cut", ended, Ok(end));
    is(rt, "cut", found.as_slice(), wanted);
}

/// Plays a part of the script: its whole lines, and then the fault of the line that is cut, if one is.
fn plays_part(rt: &impl Abort, alloc: Global, part: &[u8]) {
    let lines = part.iter().filter(|b| **b == b'\n').count();
    let mut wanted = printed(rt, alloc, lines);
    if part.is_empty() || part.ends_with(b"\n") {
        plays(rt, alloc, part, RunEnd::Clean, wanted.as_slice());
        return;
    }
    let cut = (lines as u64).saturating_add(1);
    let fault = format!(in alloc; "line {cut}: cut line").expect(rt, "memory");
    add_line(rt, &mut wanted, fault.as_str());
    plays(rt, alloc, part, RunEnd::LineFault(cut), wanted.as_slice());
}

#[test]
fn tells_a_line_that_is_cut_after_each_byte(rt: HostRuntime) {
    let script = script(&rt, rt.alloc());
    for bytes in 0..script.len() {
        plays_part(&rt, rt.alloc(), &script[..bytes]);
    }
    plays_part(&rt, rt.alloc(), &script);
}

// Reads.

/// A reader that gives some bytes at a time, and fails at one of its calls, after `left` others.
#[derive(Drop)]
struct FailingReader<'a> {
    rest: &'a [u8],
    left: usize,
}

impl io::Read for FailingReader<'_> {
    fn read(&mut self, buf: &mut [u8]) -> io::Result<usize> {
        if self.left == 0 {
            return Err(io::Error::from(io::ErrorKind::Other));
        }
        self.left -= 1;
        let count = STEP.min(self.rest.len()).min(buf.len());
        buf[..count].copy_from_slice(&self.rest[..count]);
        self.rest = &self.rest[count..];
        Ok(count)
    }
}

/// Plays the script from a reader that fails after a number of reads.
fn reads(
    rt: &impl Abort,
    alloc: Global,
    left: usize,
    end: Result<RunEnd, RunFault>,
    wanted: &[u8],
) {
    let script = script(rt, alloc);
    let mut found = Vec::new(alloc);
    let reader = FailingReader {
        rest: script.as_slice(),
        left,
    };
    let ended = run(
        alloc,
        &mut Noted::new(reader),
        &mut Noted::new(&mut found),
        &mut Vec::new(alloc),
    );
    is(rt, "read", ended, end);
    is(rt, "read", found.as_slice(), wanted);
}

#[test]
fn writes_nothing_if_any_read_fails(rt: HostRuntime) {
    let alloc = rt.alloc();
    // The last read finds the end.
    let count = script(&rt, alloc).len().div_ceil(STEP).saturating_add(1);
    for left in 0..count {
        reads(&rt, alloc, left, Err(RunFault::Read), b"");
    }
    let wanted = transcript(&rt, alloc);
    reads(&rt, alloc, count, Ok(RunEnd::Clean), wanted.as_slice());
}

// Writes.

/// A writer that takes some bytes at a time, and at one of its calls, after `left` others, fails or takes nothing.
#[derive(Drop)]
struct FailingWriter {
    taken: Vec<u8>,
    left: usize,
    fails: bool,
}

impl io::Write for FailingWriter {
    fn write(&mut self, buf: &[u8]) -> io::Result<usize> {
        if self.left == 0 {
            return if self.fails {
                Err(io::Error::from(io::ErrorKind::Other))
            } else {
                Ok(0)
            };
        }
        self.left -= 1;
        let count = STEP.min(buf.len());
        self.taken.extend_from_slice(&buf[..count])?;
        Ok(count)
    }

    fn flush(&mut self) -> io::Result<()> {
        Ok(())
    }
}

/// Plays the script to a writer that fails, or takes nothing, after a number of writes.
fn writes(
    rt: &impl Abort,
    alloc: Global,
    fails: bool,
    left: usize,
    end: Result<RunEnd, RunFault>,
    wanted: &[u8],
) {
    let script = script(rt, alloc);
    let mut writer = FailingWriter {
        taken: Vec::new(alloc),
        left,
        fails,
    };
    let mut reader = Noted::new(script.as_slice());
    let ended = run(
        alloc,
        &mut reader,
        &mut Noted::new(&mut writer),
        &mut Vec::new(alloc),
    );
    is(rt, "write", ended, end);
    is(rt, "write", writer.taken.as_slice(), wanted);
}

/// Fails, or takes nothing, at each write in turn.
fn writes_up_to_each(rt: &impl Abort, alloc: Global, fails: bool) {
    let all = transcript(rt, alloc);
    let count = all.len().div_ceil(STEP);
    for left in 0..count {
        let taken = all.get(..left.saturating_mul(STEP)).expect(rt, "a prefix");
        writes(rt, alloc, fails, left, Err(RunFault::Write), taken);
    }
    writes(rt, alloc, fails, count, Ok(RunEnd::Clean), &all);
}

#[test]
fn writes_a_prefix_if_any_write_fails(rt: HostRuntime) {
    writes_up_to_each(&rt, rt.alloc(), true);
}

#[test]
fn writes_a_prefix_if_any_write_takes_nothing(rt: HostRuntime) {
    writes_up_to_each(&rt, rt.alloc(), false);
}
