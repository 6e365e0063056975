//! Runs a proved program: an input through standard input, and what it prints.

use std::io::{ErrorKind, Write};
use std::path::{Path, PathBuf};
use std::process::{Command, Stdio};

use design::difference::ensure;

/// A path in the repository.
pub fn folder(name: &str) -> PathBuf {
    Path::new(env!("CARGO_MANIFEST_DIR")).join("../..").join(name)
}

pub fn binary(program: &str) -> Result<PathBuf, String> {
    let binary = folder("crates").join(program).join("out").join(program);
    ensure(binary.is_file(), || format!("{} is missing: build the program before this test", binary.display()))?;
    Ok(binary)
}

/// Runs a program on an input that comes in pieces of this size, and returns what it printed.
pub fn printed(program: &str, input: &[u8], piece: usize) -> Result<Vec<u8>, String> {
    let said = |error: std::io::Error| error.to_string();
    let mut child = Command::new(binary(program)?)
        .stdin(Stdio::piped())
        .stdout(Stdio::piped())
        .stderr(Stdio::piped())
        .spawn()
        .map_err(said)?;
    let mut stdin = child.stdin.take().ok_or("no standard input")?;
    for part in input.chunks(piece) {
        match stdin.write_all(part).and_then(|()| stdin.flush()) {
            Ok(()) => {}
            // It may have seen enough of an input that is too long.
            Err(error) if error.kind() == ErrorKind::BrokenPipe => break,
            Err(error) => return Err(said(error)),
        }
    }
    drop(stdin);
    let output = child.wait_with_output().map_err(said)?;
    let broken = || format!("it was stopped, {}: {}", output.status, String::from_utf8_lossy(&output.stderr));
    ensure(output.status.success(), broken)?;
    Ok(output.stdout)
}
