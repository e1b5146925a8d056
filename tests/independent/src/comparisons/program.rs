//! Runs a program on an input, for the comparisons of what it prints.

use std::ffi::OsStr;
use std::io::{self, Write};
use std::process::{Command, Output, Stdio};
use std::thread;
use std::time::Duration;

/// So many bytes at once as there are.
pub const AT_ONCE: usize = usize::MAX;

/// Bytes that a pipe takes before anyone reads them.
const IN_A_PIPE: usize = 4_096;

/// Runs the program to its end, with the input given in pieces of so many bytes.
pub fn run(mut program: Command, input: &[u8], piece: usize) -> io::Result<Output> {
    let mut running = program
        .stdin(Stdio::piped())
        .stdout(Stdio::piped())
        .spawn()?;
    let mut standard_input = running.stdin.take().expect("a pipe");
    if input.len() <= IN_A_PIPE && piece == AT_ONCE {
        give(&mut standard_input, input, piece)?;
        drop(standard_input);
        return running.wait_with_output();
    }
    thread::scope(|scope| {
        // Its replies are read meanwhile, so neither side waits for ever.
        let given = scope.spawn(move || give(&mut standard_input, input, piece));
        let output = running.wait_with_output()?;
        given.join().expect("no panic")?;
        Ok(output)
    })
}

/// What the program prints for the input; behind it, how it ended, where it was not run or a signal
/// ended it.
pub fn printed(program: &OsStr, input: &str) -> String {
    match run(Command::new(program), input.as_bytes(), AT_ONCE) {
        Ok(output) => {
            let printed = String::from_utf8_lossy(&output.stdout);
            // Which exit status it has is left free; a signal is none.
            match output.status.code() {
                Some(_) => printed.into_owned(),
                None => format!("{printed}{}\n", output.status),
            }
        }
        Err(error) => error.to_string(),
    }
}

/// A program that has read more than it takes may end before it has read all.
fn give(standard_input: &mut impl Write, input: &[u8], piece: usize) -> io::Result<()> {
    for part in input.chunks(piece.min(input.len()).max(1)) {
        match standard_input.write_all(part) {
            Err(error) if error.kind() == io::ErrorKind::BrokenPipe => return Ok(()),
            given => given?,
        }
        if part.len() < input.len() {
            thread::sleep(Duration::from_micros(200));
        }
    }
    Ok(())
}
