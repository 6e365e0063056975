//! Which functions main reaches by calls, from the calls that the check comes by.

use crate::check::{survey_calls, Survey, CALLERS};
use crate::Functions;

/// Of an accepted table.
pub(crate) struct Reach {
    /// What each body calls, maybe its own function.
    pub called: [Functions; CALLERS],
    /// Main and all that it reaches.
    pub reached: Functions,
}

impl Reach {
    pub fn unknown() -> Reach {
        Reach { called: [0; CALLERS], reached: 0 }
    }

    /// What the check returns; of an accepted table the reach is known then.
    pub fn survey(&mut self, table: &[u8], known: &mut Survey) -> u32 {
        let refused = survey_calls::<true>(table, known, &mut self.called);
        if refused == 0 {
            let functions = usize::from(table[0]);
            self.reached = 1 << (functions - 1);
            // A caller comes after its callees.
            for function in (1..=functions).rev() {
                if self.reached >> (function - 1) & 1 == 1 {
                    self.reached |= self.called[function];
                }
            }
        }
        refused
    }
}

/// From the lowest function on.
pub(crate) fn for_each(mut functions: Functions, mut each: impl FnMut(usize)) {
    while functions != 0 {
        each(functions.trailing_zeros() as usize + 1);
        functions &= functions - 1;
    }
}
