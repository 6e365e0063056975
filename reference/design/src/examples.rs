//! The example files of the repository.

use std::fs;
use std::path::PathBuf;

use crate::difference::ensure;

/// How many tables there have to be at least.
const FEWEST: usize = 12;

pub fn folder() -> PathBuf {
    PathBuf::from(env!("CARGO_MANIFEST_DIR")).join("../../examples")
}

/// The bytes of every example table; too few of them are a difference.
pub fn tables() -> Result<Vec<Vec<u8>>, String> {
    let said = |error: std::io::Error| error.to_string();
    let mut found = Vec::new();
    for entry in fs::read_dir(folder()).map_err(said)? {
        let path = entry.map_err(said)?.path();
        if path.extension().is_some_and(|ending| ending == "table") {
            found.push(fs::read(&path).map_err(said)?);
        }
    }
    ensure(found.len() >= FEWEST, || format!("{} examples", found.len()))?;
    Ok(found)
}
