//! Assembles the text of a design to a table: `asm FILE.safl OUT.table`.

use std::ffi::OsString;
use std::fs;
use std::io::{stderr, Write};
use std::path::Path;
use std::process::ExitCode;

fn main() -> ExitCode {
    // Names of files needn't be texts.
    let arguments: Vec<OsString> = std::env::args_os().skip(1).collect();
    let outcome = match &arguments[..] {
        [text, table] => run(Path::new(text), Path::new(table)),
        _ => Err("expected two arguments: asm FILE.safl OUT.table".to_string()),
    };
    match outcome {
        Ok(()) => ExitCode::SUCCESS,
        Err(message) => {
            // Where nobody takes the message, the status still tells.
            let _ = writeln!(stderr(), "{message}");
            ExitCode::FAILURE
        }
    }
}

/// Writes only once the whole text is assembled, so that an error leaves the output as it was.
fn run(text: &Path, table: &Path) -> Result<(), String> {
    let content = read(text)?;
    let at_line = |line: usize, message: &str| format!("{}:{line}: {message}", text.display());
    let bytes = design::asm::assemble(&content).map_err(|error| at_line(error.line, &error.message))?;
    if is_same(text, table) {
        return Err(format!("{}: expected an output other than the text", table.display()));
    }
    write(table, &bytes)
}

fn read(text: &Path) -> Result<String, String> {
    let bytes = fs::read(text).map_err(|error| format!("{}: expected a file to read: {error}", text.display()))?;
    String::from_utf8(bytes).map_err(|error| {
        let at = error.utf8_error().valid_up_to();
        let (before, after) = error.as_bytes().split_at(at);
        let line = 1 + before.iter().filter(|byte| **byte == b'\n').count();
        format!("{}:{line}: expected text in UTF-8, found byte {:#04x}", text.display(), after[0])
    })
}

fn is_same(text: &Path, table: &Path) -> bool {
    matches!((fs::canonicalize(text), fs::canonicalize(table)), (Ok(one), Ok(other)) if one == other)
}

fn write(table: &Path, bytes: &[u8]) -> Result<(), String> {
    let existed = table.exists();
    fs::write(table, bytes).map_err(|error| {
        if !existed {
            // What a full disk let through is no table.
            let _ = fs::remove_file(table);
        }
        format!("{}: expected a file to write: {error}", table.display())
    })
}
