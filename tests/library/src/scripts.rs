//! Faults of lines, and streams that fail.
mod faults;
mod streams;

use crate::common::is_at as is;
use jc_script::run::run;
use jc_script::{RunEnd, RunFault};
use jc_text::Noted;
use std::alloc::Global;
use std::io;
use std::process::Abort;
use std::str::from_utf8;

// The lines of a text that separates them by `; `, each with a line feed.
fn lines(rt: &impl Abort, alloc: Global, text: &str) -> Vec<u8> {
    let mut all = Vec::new(alloc);
    for line in text.split("; ") {
        all.extend_from_slice(line.as_bytes()).expect(rt, "memory");
        all.push(b'\n').expect(rt, "memory");
    }
    all
}

// Plays a script that ends at this line, with this fault.
fn ends_with_fault(rt: &impl Abort, alloc: Global, script: &[u8], line: usize, fault: &str) {
    let mut found = Vec::new(alloc);
    let mut told = Vec::new(alloc);
    let end = run(
        alloc,
        &mut Noted::new(script),
        &mut Noted::new(&mut found),
        &mut told,
    )
    .expect(rt, "a run");
    is(rt, fault, end, RunEnd::LineFault(line as u64));
    let wanted = format!(in alloc; "line {line}: {fault}\n").expect(rt, "memory");
    assert!(rt; found.ends_with(wanted.as_bytes()), "at {script:?}");
}

// Plays a part of a text: a fault, and a line for each script that ends with it at its last line.
fn end_with_fault(rt: &impl Abort, alloc: Global, part: &str) {
    let (fault, scripts) = part.split_once('\n').expect(rt, "a fault");
    for script in scripts.lines() {
        let count = script.split("; ").count();
        ends_with_fault(rt, alloc, &lines(rt, alloc, script), count, fault);
    }
}

// Plays scripts in parts that `==` separates.
fn all_end_with_faults(rt: &impl Abort, alloc: Global, parts: &str) {
    for part in parts.split("==\n") {
        end_with_fault(rt, alloc, part);
    }
}

// Plays a script, and asserts the text of its fault.
fn is_told(rt: &impl Abort, alloc: Global, script: &[u8], wanted: &str) {
    let mut found = Vec::new(alloc);
    let mut told = Vec::new(alloc);
    let _ended = run(
        alloc,
        &mut Noted::new(script),
        &mut Noted::new(&mut found),
        &mut told,
    );
    let told = from_utf8(&told).expect(rt, "a text");
    is(rt, wanted, told.trim_end(), wanted);
}

// Plays the script of each line. After the script the line has an arrow, ` => `, and the text of the fault.
fn all_are_told(rt: &impl Abort, alloc: Global, table: &str) {
    for line in table.lines() {
        let (script, wanted) = line.split_once(" => ").expect(rt, "what is said");
        is_told(rt, alloc, &lines(rt, alloc, script), wanted);
    }
}

// A reader that gives one line, and then fails.
#[derive(Drop)]
struct Torn {
    has_given: bool,
}

impl io::Read for Torn {
    fn read(&mut self, buf: &mut [u8]) -> io::Result<usize> {
        let text = b"open 1 2 100\n";
        if self.has_given || buf.len() < text.len() {
            return Err(io::Error::from(io::ErrorKind::Other));
        }
        self.has_given = true;
        buf[..text.len()].copy_from_slice(text);
        Ok(text.len())
    }
}

// A writer that takes a byte at a time, a given number of times, and then fails.
#[derive(Drop)]
struct Narrow {
    taken: Vec<u8>,
    left: usize,
}

impl io::Write for Narrow {
    fn write(&mut self, buf: &[u8]) -> io::Result<usize> {
        if self.left == 0 || buf.is_empty() {
            return Err(io::Error::from(io::ErrorKind::Other));
        }
        self.left -= 1;
        self.taken.push(buf[0])?;
        Ok(1)
    }

    fn flush(&mut self) -> io::Result<()> {
        Ok(())
    }
}

#[test]
fn tells_a_failed_read(rt: HostRuntime) {
    let alloc = rt.alloc();
    let mut out = Vec::new(alloc);
    let mut torn = Noted::new(Torn { has_given: false });
    let ended = run(
        alloc,
        &mut torn,
        &mut Noted::new(&mut out),
        &mut Vec::new(alloc),
    );
    is(&rt, "read", ended, Err(RunFault::Read));
    is(&rt, "read", out.len(), 0);
}

// Writes `open` and a line feed to a writer that takes this many bytes.
fn writes_open(rt: &impl Abort, alloc: Global, left: usize, wanted: Result<RunEnd, RunFault>) {
    let mut writer = Narrow {
        taken: Vec::new(alloc),
        left,
    };
    let mut reader = Noted::new(&b"open 1 2 100\n"[..]);
    let ended = run(
        alloc,
        &mut reader,
        &mut Noted::new(&mut writer),
        &mut Vec::new(alloc),
    );
    is(rt, "write", ended, wanted);
    is(rt, "write", b"open\n".starts_with(&writer.taken), true);
    is(rt, "write", writer.taken.len(), left);
}

#[test]
fn tells_a_failed_write(rt: HostRuntime) {
    writes_open(&rt, rt.alloc(), 3, Err(RunFault::Write));
    writes_open(&rt, rt.alloc(), 5, Ok(RunEnd::Clean));
}

fn says(rt: &impl Abort, alloc: Global, fault: RunFault, wanted: &str) {
    let text = format!(in alloc; "{fault}").expect(rt, "memory");
    is(rt, wanted, text.as_str(), wanted);
}

#[test]
fn says_why(rt: HostRuntime) {
    says(&rt, rt.alloc(), RunFault::Read, "read failed");
    says(&rt, rt.alloc(), RunFault::TooLong, "input too long");
    says(&rt, rt.alloc(), RunFault::OutOfMemory, "out of memory");
    says(&rt, rt.alloc(), RunFault::Write, "write failed");
}
