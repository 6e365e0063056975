//! Who has to call whom in a random design, so that main reaches just the functions that it is to reach.

use crate::random::Random;

/// What main is to reach.
#[derive(Clone, Copy, PartialEq)]
pub enum Reach {
    /// Every function.
    All,
    /// Not every one, if there are two.
    NotAll,
}

/// Functions count from 1; main is the last.
pub struct Plan {
    sizes: Vec<usize>,
    spare: Vec<bool>,
    due: Vec<Vec<usize>>,
}

/// Who is to make a call that somebody has to make.
#[derive(Clone, Copy)]
enum Caller {
    /// The nearest function above, which makes long chains.
    Nearest,
    /// Main, or the highest one that may.
    Highest,
    /// The more nodes a body has, the likelier.
    Any,
}

impl Plan {
    /// A plan for bodies of these sizes.
    pub fn new(random: &mut Random, sizes: Vec<usize>, reach: Reach) -> Plan {
        let spare = match reach {
            Reach::All => vec![false; sizes.len()],
            Reach::NotAll => spare(random, sizes.len()),
        };
        let due = vec![Vec::new(); sizes.len()];
        let mut plan = Plan { sizes, spare, due };
        let habit = random.pick(&[Caller::Nearest, Caller::Highest, Caller::Any, Caller::Any]);
        for callee in (1..plan.functions()).rev() {
            // Nobody has to call a spare function, but then chains of them would be rare.
            if !plan.is_spare(callee) || random.once_in(2) {
                plan.find_caller(random, callee, habit);
            }
        }
        plan
    }

    /// Has a function above call this one. A reached one is always found a caller: each reached body above has a node
    /// for a call, and all but main's have used up one of them. The highest spare one has none.
    fn find_caller(&mut self, random: &mut Random, callee: usize, habit: Caller) {
        let room = |caller: usize| self.size(caller) - self.due(caller).len();
        let fits = |caller: &usize| self.is_spare(*caller) == self.is_spare(callee) && room(*caller) > 0;
        let callers: Vec<usize> = (callee + 1..=self.functions()).filter(fits).collect();
        let (Some(nearest), Some(highest)) = (callers.first(), callers.last()) else {
            return;
        };
        let caller = match habit {
            Caller::Nearest => *nearest,
            Caller::Highest => *highest,
            Caller::Any => {
                let places = callers.iter().flat_map(|caller| std::iter::repeat_n(*caller, room(*caller)));
                random.pick(&places.collect::<Vec<usize>>())
            }
        };
        self.due[caller - 1].push(callee);
    }

    pub fn functions(&self) -> usize {
        self.sizes.len()
    }

    /// The nodes of a body.
    pub fn size(&self, function: usize) -> usize {
        self.sizes[function - 1]
    }

    /// Whether main is not to reach it.
    pub fn is_spare(&self, function: usize) -> bool {
        self.spare[function - 1]
    }

    /// A reached body calls no spare function: it would be reached then.
    pub fn may_call(&self, caller: usize, callee: usize) -> bool {
        self.is_spare(caller) || !self.is_spare(callee)
    }

    /// What a function has to call, if nobody above it does; no more of them than its body has nodes.
    pub fn due(&self, function: usize) -> &[usize] {
        &self.due[function - 1]
    }
}

/// Which functions are spare: about a third, never main, and one at least if there is another.
fn spare(random: &mut Random, functions: usize) -> Vec<bool> {
    let share = random.pick(&[1, 3, 3, 4, 4, 4, 5]);
    let mut spare: Vec<bool> = (1..=functions).map(|function| function < functions && random.once_in(share)).collect();
    if functions > 1 && !spare.contains(&true) {
        spare[random.below(functions - 1)] = true;
    }
    spare
}
