//! A program that reads standard input.
use std::io::{ErrorKind, Write};
use std::path::Path;
use std::process::{Command, Stdio};
use std::thread;

/// What the program prints.
pub fn run(program: &Path, input: &[u8]) -> Result<Vec<u8>, String> {
    let error = |error| format!("{}: {error}", program.display());
    let mut child = Command::new(program)
        .stdin(Stdio::piped())
        .stdout(Stdio::piped())
        .spawn()
        .map_err(error)?;
    let mut pipe = child.stdin.take().ok_or("no pipe to write to")?;
    let (written, output) = thread::scope(|scope| {
        let writer = scope.spawn(move || pipe.write_all(input));
        let output = child.wait_with_output();
        (writer.join().expect("writing does not panic"), output)
    });
    match written {
        // A program may answer before it has read everything.
        Err(broken) if broken.kind() == ErrorKind::BrokenPipe => {}
        written => written.map_err(error)?,
    }
    let output = output.map_err(error)?;
    if !output.status.success() {
        return Err(format!("{}: {}", program.display(), output.status));
    }
    Ok(output.stdout)
}
