//! A program run on a file or a socket as its standard input.

use std::error::Error;
use std::fs::File;
use std::io::{Read, Seek, Write};
use std::os::fd::OwnedFd;
use std::os::unix::net::UnixStream;
use std::path::Path;
use std::process::{Command, Stdio};
use std::time::Instant;

/// What it printed.
fn printed(mut program: Command, input: impl Into<Stdio>) -> Result<Vec<u8>, Box<dyn Error>> {
    let run = program.stdin(input).output()?;
    if !run.status.success() {
        return Err(format!("{program:?} failed").into());
    }
    Ok(run.stdout)
}

/// What it printed, and how long it took from start to end in ns.
pub fn once(program: Command, input: &Path) -> Result<(Vec<u8>, f64), Box<dyn Error>> {
    let input = File::open(input)?;
    let start = Instant::now();
    let printed = printed(program, input)?;
    Ok((printed, start.elapsed().as_nanos() as f64))
}

/// What it printed, and how many bytes of the file it has read: its place in the file is ours too.
pub fn read_of_file(program: Command, input: &Path) -> Result<(Vec<u8>, usize), Box<dyn Error>> {
    let mut input = File::open(input)?;
    let printed = printed(program, input.try_clone()?)?;
    Ok((printed, input.stream_position()? as usize))
}

/// What it printed, and how many of these bytes it has read from a socket, where what is read cannot
/// be put back: the others are still there.
pub fn read_of_socket(program: Command, bytes: &[u8]) -> Result<(Vec<u8>, usize), Box<dyn Error>> {
    let (mut feeding, input) = UnixStream::pair()?;
    let mut left = input.try_clone()?;
    // The socket has room for them all; behind them the input ends.
    feeding.write_all(bytes)?;
    drop(feeding);
    let printed = printed(program, OwnedFd::from(input))?;
    let mut rest = Vec::new();
    left.read_to_end(&mut rest)?;
    Ok((printed, bytes.len() - rest.len()))
}
