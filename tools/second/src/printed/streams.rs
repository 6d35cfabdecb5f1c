//! Streams that take nothing or a part, and input that comes in pieces, is
//! interrupted, or is typed.

use super::cases::{Planner, A};
use super::{run, same, system, Said};
use crate::programs::Programs;
use std::fs::{self, File};
use std::io::{ErrorKind, Read, Result, Write};
use std::path::Path;
use std::process::{Child, Stdio};
use std::thread::sleep;
use std::time::Duration;

/// What is wrong.
type Fault = std::result::Result<(), String>;

/// A try with one of the programs and the stored nets.
type Stream = fn(&Programs, &Planner, &Path) -> Result<Fault>;

pub fn all() -> [(&'static str, Stream); 7] {
    [
        ("a full disk", full_disk),
        ("a full pipe", full_pipe),
        ("an answer cut short", cut_short),
        ("input that cannot be read", unreadable),
        ("input byte by byte", byte_by_byte),
        ("input with a stop in between", stopped),
        ("input typed at a terminal", typed),
    ]
}

/// Long enough that the program has come to its next read.
fn pause() {
    sleep(Duration::from_millis(1));
}

/// The program, its standard output being this, with the whole net as its input.
fn plan_into(programs: &Programs, by: &Planner, out: File, net: &[u8]) -> Result<Said> {
    let mut plan = programs.command(by.program);
    let mut child = plan.stdin(Stdio::piped()).stdout(out).spawn()?;
    child.stdin.take().expect("piped").write_all(net)?;
    run::finish(child)
}

fn full_disk(programs: &Programs, by: &Planner, _: &Path) -> Result<Fault> {
    let full = File::options().write(true).open("/dev/full")?;
    let said = plan_into(programs, by, full, A.as_bytes())?;
    let expected = Said::of("", "standard output: No space left on device\n");
    Ok(same(&said, &expected))
}

/// All that is in a pipe whose other end is closed, or that is empty.
fn drained(mut pipe: File) -> Result<Vec<u8>> {
    let mut all = Vec::new();
    match pipe.read_to_end(&mut all) {
        Err(e) if e.kind() != ErrorKind::WouldBlock => Err(e),
        _ => Ok(all),
    }
}

fn full_pipe(programs: &Programs, by: &Planner, _: &Path) -> Result<Fault> {
    let (far, mut near) = system::small_pipe()?;
    let mut filled = 0;
    while let Ok(more) = near.write(b"full") {
        filled += more;
    }
    let mut said = plan_into(programs, by, near, A.as_bytes())?;
    said.out = drained(far)?.split_off(filled);
    let expected = Said::of("", "standard output: Resource temporarily unavailable\n");
    Ok(same(&said, &expected))
}

/// What went out is the front of the right answer, and no more is sent after it.
fn cut_short(programs: &Programs, by: &Planner, stored: &Path) -> Result<Fault> {
    let net = fs::read(stored.join("as-near-512.net"))?;
    let listing = fs::read(stored.join(format!("as-near-512.{}", by.stored)))?;
    let (far, near) = system::small_pipe()?;
    let mut said = plan_into(programs, by, near, &net)?;
    said.out = drained(far)?;
    Ok(is_cut(&said, &listing))
}

pub fn is_cut(said: &Said, answer: &[u8]) -> Fault {
    let sent = said.out.len();
    if sent == 0 || sent >= answer.len() {
        return Err(format!("{sent} bytes of {} went out", answer.len()));
    }
    let expected = Said {
        out: answer[..sent].to_vec(),
        err: b"standard output: the answer was cut short\n".to_vec(),
    };
    same(said, &expected)
}

fn unreadable(programs: &Programs, by: &Planner, stored: &Path) -> Result<Fault> {
    let child = programs
        .command(by.program)
        .stdin(File::open(stored)?)
        .spawn()?;
    let expected = Said::of("", "standard input: Is a directory\n");
    Ok(same(&run::finish(child)?, &expected))
}

/// The program, with what is done to it while it reads A.
fn fed(programs: &Programs, by: &Planner, feed: fn(&mut Child) -> Result<()>) -> Result<Fault> {
    let mut child = programs.command(by.program).stdin(Stdio::piped()).spawn()?;
    feed(&mut child)?;
    drop(child.stdin.take());
    Ok(same(&run::finish(child)?, &Said::of(by.listing, "")))
}

fn byte_by_byte(programs: &Programs, by: &Planner, _: &Path) -> Result<Fault> {
    fed(programs, by, |child| {
        let input = child.stdin.as_mut().expect("piped");
        for byte in A.as_bytes() {
            input.write_all(&[*byte])?;
            pause();
        }
        Ok(())
    })
}

fn stopped(programs: &Programs, by: &Planner, _: &Path) -> Result<Fault> {
    fed(programs, by, |child| {
        for line in A.split_inclusive('\n') {
            pause();
            system::interrupt(child)?;
            let input = child.stdin.as_mut().expect("piped");
            input.write_all(line.as_bytes())?;
        }
        Ok(())
    })
}

/// One ^D at the start of a line ends the input.
fn typed(programs: &Programs, by: &Planner, _: &Path) -> Result<Fault> {
    let (mut keys, line) = system::terminal()?;
    let child = programs.command(by.program).stdin(line).spawn()?;
    keys.write_all(A.as_bytes())?;
    keys.write_all(b"\x04")?;
    Ok(same(&run::finish(child)?, &Said::of(by.listing, "")))
}
