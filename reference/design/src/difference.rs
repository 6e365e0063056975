//! How the comparisons tell a difference: it is returned and not panicked with, since a linked library may bring
//! its own way to panic.

use crate::table::Refusal;

pub type Outcome = Result<(), String>;

pub fn ensure(holds: bool, otherwise: impl FnOnce() -> String) -> Outcome {
    if holds {
        Ok(())
    } else {
        Err(otherwise())
    }
}

/// Bytes as one line of hex digits.
pub fn shown(bytes: &[u8]) -> String {
    bytes.iter().map(|byte| format!("{byte:02x}")).collect()
}

/// What a check said in one number, as the other implementations return it; 0 stands for no refusal.
pub fn code(answer: Result<(), Refusal>) -> u32 {
    answer.map_or_else(Refusal::code, |()| 0)
}

/// What came of bytes that are to be accepted; a refusal is a difference, told with them.
pub fn unrefused<T>(answer: Result<T, Refusal>, bytes: &[u8]) -> Result<T, String> {
    answer.map_err(|refusal| format!("{refusal:?}: {}", shown(bytes)))
}

/// A refusal as it is written in the rules; 0 stands for none.
pub fn told(answer: u32) -> String {
    match answer {
        0 => "no refusal".to_string(),
        _ => format!("{} at {}", answer / 65536, answer % 65536),
    }
}
