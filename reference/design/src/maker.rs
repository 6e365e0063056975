//! Random function bodies, node by node, main's first: what nobody has called yet may still be given other parameters.

use numbers::{ADD, AND, BESIDE, HALVE, MOST_PARAMETERS};
use numbers::{BOUND, CALL, CONSTANT, IF, LET, PARAMETER, PRIMITIVE};

use crate::draft::{Draft, Head};
use crate::plan::Plan;
use crate::random::Random;
use crate::table::operation_counts;
use crate::widths::constant;

/// Which of the fitting functions are called.
#[derive(Clone, Copy)]
pub enum Callees {
    Any,
    /// The lowest few get all the calls, so that arms share them.
    Lowest,
    /// The nearest one, so that a lone site may be reached from several arms.
    Nearest,
}

/// Which rule is kept loosely; such a table is mostly refused.
#[derive(Clone, Copy, PartialEq)]
pub enum Stray {
    Nothing,
    /// Self calls anywhere.
    SelfCalls,
    /// Now and then a wrong number of children.
    Counts,
    /// Now and then a bound that leads anywhere.
    Scope,
}

/// How likely each shape of node is, so that tables differ in character and not only in detail.
#[derive(Clone, Copy)]
pub struct Taste {
    pub primitives: usize,
    pub calls: usize,
    pub ifs: usize,
    pub lets: usize,
    /// One child gets nearly everything, which makes deep chains.
    pub deep: bool,
    pub callees: Callees,
    pub stray: Stray,
}

pub struct Maker<'a> {
    random: &'a mut Random,
    taste: Taste,
    plan: &'a Plan,
    parameters: Vec<u8>,
    /// Width bytes.
    widths: &'a [u8],
    draft: Draft,
    /// The callees of all calls so far.
    called: Vec<usize>,
    /// The function being made.
    function: usize,
    /// What its body still has to call; nobody has called these.
    due: Vec<usize>,
    /// How many branches of ifs in tail position are around.
    branches: usize,
    /// Definientia in scope.
    scope: Vec<usize>,
    /// Children of lets so far, in scope or not.
    let_children: Vec<usize>,
}

impl<'a> Maker<'a> {
    /// Functions with about these parameters.
    pub fn new(random: &'a mut Random, taste: Taste, plan: &'a Plan, parameters: Vec<u8>, widths: &'a [u8]) -> Self {
        Maker {
            random,
            taste,
            plan,
            parameters,
            widths,
            draft: Draft::default(),
            called: Vec::new(),
            function: 0,
            due: Vec::new(),
            branches: 0,
            scope: Vec::new(),
            let_children: Vec::new(),
        }
    }

    /// The whole design.
    pub fn design(mut self) -> Draft {
        for function in (1..=self.plan.functions()).rev() {
            self.function = function;
            let due = self.plan.due(function).iter();
            self.due = due.filter(|callee| !self.called.contains(callee)).copied().collect();
            let root = self.expression(self.plan.size(function), true, self.due.len());
            let (parameters, width) = (self.parameters[function - 1], self.widths[function - 1]);
            self.draft.functions.push(Head { parameters, width, root });
        }
        self.draft.functions.reverse();
        self.draft
    }

    /// A rule of this kind is to be broken here.
    fn strays(&mut self, stray: Stray) -> bool {
        self.taste.stray == stray && self.random.once_in(6)
    }

    fn own_parameters(&self) -> usize {
        usize::from(self.parameters[self.function - 1])
    }

    /// An expression of just this many nodes, so many of which, if there still are as many, are calls that are due.
    fn expression(&mut self, size: usize, tail: bool, due: usize) -> usize {
        if due >= size {
            if let Some(node) = self.call(size, tail, due) {
                return node;
            }
        }
        if size == 1 {
            return self.leaf(tail);
        }
        let has_room = self.own_parameters() > 0 && size >= 7 + self.own_parameters() + due;
        if tail && has_room && self.random.below(5) < 2 {
            return self.countdown(size, due);
        }
        if tail && self.plan.is_spare(self.function) && !self.random.once_in(3) {
            if let Some(node) = self.twins(size, due) {
                return node;
            }
        }
        let Taste { primitives, calls, ifs, lets, .. } = self.taste;
        let choice = self.random.below(primitives + calls + ifs + lets);
        if choice < calls {
            if let Some(node) = self.call(size, tail, due) {
                return node;
            }
        } else if choice < calls + ifs && size >= 4 {
            return self.conditional(size, tail, due);
        } else if choice < calls + ifs + lets && size >= 3 {
            return self.binding(size, tail, due);
        }
        self.primitive(size, due)
    }

    /// Deals calls that are due to parts of these sizes, to each no more than it has nodes.
    fn deal(&mut self, due: usize, sizes: &[usize]) -> Vec<usize> {
        let mut parts: Vec<usize> = sizes.iter().enumerate().flat_map(|(at, size)| vec![at; *size]).collect();
        let mut dealt = vec![0; sizes.len()];
        for _ in 0..due.min(parts.len()) {
            let at = self.random.below(parts.len());
            dealt[parts.swap_remove(at)] += 1;
        }
        dealt
    }

    fn leaf(&mut self, tail: bool) -> usize {
        match self.random.below(8) {
            0..=1 => {
                if let Some(node) = self.call(1, tail, 0) {
                    return node;
                }
            }
            2..=3 if !self.draft.items.is_empty() && self.strays(Stray::Scope) => {
                let any = self.random.below(self.draft.items.len());
                let of_a_let = self.let_children.last().map_or(any, |_| self.random.pick(&self.let_children));
                let target = self.random.pick(&[any, of_a_let, of_a_let, of_a_let]);
                return self.draft.add(BOUND, 0, target as u32);
            }
            4..=6 if self.own_parameters() > 0 => {
                let count = self.own_parameters();
                let index = self.random.below(count);
                return self.draft.add(PARAMETER, index as u8, 0);
            }
            2.. if !self.scope.is_empty() => {
                let definiens = self.random.pick(&self.scope);
                return self.draft.add(BOUND, 0, definiens as u32);
            }
            _ => {}
        }
        let value = constant(self.random, self.widths[self.function - 1]);
        self.draft.add(CONSTANT, 0, value)
    }

    fn children(&mut self, node: usize, sizes: &[usize], due: usize) {
        let dealt = self.deal(due, sizes);
        let children = sizes.iter().zip(dealt).map(|(size, due)| self.expression(*size, false, due)).collect();
        self.draft.items[node].children = children;
    }

    fn split(&mut self, total: usize, parts: usize) -> Vec<usize> {
        self.random.split(total, parts, self.taste.deep)
    }

    fn primitive(&mut self, size: usize, due: usize) -> usize {
        let counts = |operation: u8| -> (usize, usize) {
            let (fewest, most) = operation_counts(operation);
            (fewest.into(), most.into())
        };
        let fitting: Vec<u8> = (ADD..=BESIDE).filter(|operation| counts(*operation).0 < size).collect();
        let operation = if self.random.once_in(3) { BESIDE } else { self.random.pick(&fitting) };
        let (fewest, most) = counts(operation);
        let mut count = self.random.within(fewest, most.min(size - 1));
        if self.strays(Stray::Counts) {
            count = self.random.pick(&[fewest - 1, most + 1]).min(size - 1);
        }
        let node = self.draft.add(PRIMITIVE, operation, 0);
        let sizes = self.split(size - 1, count);
        self.children(node, &sizes, due);
        node
    }

    /// A call, if some function fits: with one node a call without arguments. In tail position one that is due may be
    /// put off for a self call.
    fn call(&mut self, size: usize, tail: bool, due: usize) -> Option<usize> {
        let put_off = tail && due < size && self.random.once_in(2);
        let is_due = due > 0 && !self.due.is_empty() && !put_off;
        let callee = if is_due { self.due_callee(size) } else { self.some_callee(size, tail)? };
        Some(self.call_of(callee, size, due - usize::from(is_due)))
    }

    fn call_of(&mut self, callee: usize, size: usize, due: usize) -> usize {
        self.called.push(callee);
        self.due.retain(|due| *due != callee);
        let node = self.draft.add(CALL, 0, callee as u32);
        if size > 1 {
            let mut count = usize::from(self.parameters[callee - 1]);
            if self.strays(Stray::Counts) {
                count = self.random.pick(&[count - 1, count + 1]).min(size - 1);
            }
            let sizes = self.split(size - 1, count);
            self.children(node, &sizes, due);
        }
        node
    }

    /// Two calls of one function side by side, and the other nodes in a third arm. The function is mostly a reached
    /// one: what it calls meets itself here, and maybe nowhere else.
    fn twins(&mut self, size: usize, due: usize) -> Option<usize> {
        let each = |callee: usize| 1 + usize::from(self.parameters[callee - 1]);
        let fits = |callee: &usize| 1 + 2 * each(*callee) + due <= size;
        let fitting: Vec<usize> = (1..self.function).filter(fits).collect();
        let highest = fitting.iter().rfind(|callee| !self.plan.is_spare(**callee)).copied();
        let callee = match highest {
            Some(callee) if !self.random.once_in(3) => callee,
            _ if fitting.is_empty() => return None,
            _ => self.random.pick(&fitting),
        };
        let each = each(callee);
        let node = self.draft.add(PRIMITIVE, BESIDE, 0);
        let mut children = vec![self.call_of(callee, each, 0), self.call_of(callee, each, 0)];
        let left = size - 1 - 2 * each;
        if left > 0 {
            children.push(self.expression(left, false, due));
        }
        self.draft.items[node].children = children;
        Some(node)
    }

    fn fits(&self, callee: usize, size: usize) -> bool {
        let parameters = usize::from(self.parameters[callee - 1]);
        match size {
            1 => parameters == 0,
            _ => (1..size).contains(&parameters),
        }
    }

    /// One that has to be called; where none of them fits, one is made to.
    fn due_callee(&mut self, size: usize) -> usize {
        let fitting: Vec<usize> = self.due.iter().filter(|callee| self.fits(**callee, size)).copied().collect();
        if !fitting.is_empty() {
            return self.random.pick(&fitting);
        }
        let callee = self.random.pick(&self.due);
        let parameters = &mut self.parameters[callee - 1];
        *parameters = match size {
            1 => 0,
            _ => (*parameters).clamp(1, (size - 1).min(MOST_PARAMETERS) as u8),
        };
        callee
    }

    fn some_callee(&mut self, size: usize, tail: bool) -> Option<usize> {
        // With no if around it a self call never ends, and then no caller does; but nobody runs a spare body.
        let may_go_on = self.branches > 0 || self.plan.is_spare(self.function) || self.random.below(5) < 3;
        let may_be_own = tail && may_go_on || self.taste.stray == Stray::SelfCalls;
        let last = if may_be_own { self.function } else { self.function - 1 };
        let fits = |callee: &usize| self.plan.may_call(self.function, *callee) && self.fits(*callee, size);
        let mut fitting: Vec<usize> = (1..=last).filter(fits).collect();
        if fitting.is_empty() {
            return None;
        }
        match self.taste.callees {
            Callees::Any => {}
            Callees::Lowest => fitting.truncate(2),
            Callees::Nearest => fitting = fitting.split_off(fitting.len() - 1),
        }
        Some(self.random.pick(&fitting))
    }

    fn conditional(&mut self, size: usize, tail: bool, due: usize) -> usize {
        let node = self.draft.add(IF, 0, 0);
        let count = if self.strays(Stray::Counts) { self.random.pick(&[2, 4]).min(size - 1) } else { 3 };
        let sizes = self.split(size - 1, count);
        let dealt = self.deal(due, &sizes);
        let mut children = vec![self.expression(sizes[0], false, dealt[0])];
        self.branches += usize::from(tail);
        for (size, due) in sizes.iter().zip(dealt).skip(1) {
            children.push(self.expression(*size, tail, due));
        }
        self.branches -= usize::from(tail);
        self.draft.items[node].children = children;
        node
    }

    fn binding(&mut self, size: usize, tail: bool, due: usize) -> usize {
        let node = self.draft.add(LET, 0, 0);
        let mut count = self.random.within(2, (size - 1).min(9));
        if self.strays(Stray::Counts) {
            count = self.random.pick(&[1, 10]).min(size - 1);
        }
        let sizes = self.split(size - 1, count);
        let dealt = self.deal(due, &sizes);
        let mut children = Vec::new();
        for (size, due) in sizes.iter().zip(&dealt).take(count - 1) {
            children.push(self.expression(*size, false, *due));
        }
        let outside = self.scope.len();
        self.scope.extend(&children);
        children.push(self.expression(sizes[count - 1], tail, dealt[count - 1]));
        self.scope.truncate(outside);
        self.let_children.extend(&children);
        self.draft.items[node].children = children;
        node
    }

    /// if p0 then self(halve(p0), ..) else ..: a loop that ends, which chance alone seldom makes; it still does where
    /// the half is masked by anything. In a function of few bits p0 may grow by an odd number instead, until it wraps
    /// to 0.
    fn countdown(&mut self, size: usize, due: usize) -> usize {
        let node = self.draft.add(IF, 0, 0);
        let parameters = self.own_parameters();
        let condition = self.draft.add(PARAMETER, 0, 0);
        let again = self.draft.add(CALL, 0, self.function as u32);
        let width = self.widths[self.function - 1];
        let wraps = (1..=4).contains(&width) && !self.random.once_in(3);
        let step = self.draft.add(PRIMITIVE, if wraps { ADD } else { HALVE }, 0);
        let mut operands = vec![self.draft.add(PARAMETER, 0, 0)];
        if wraps {
            let odd = constant(self.random, width) | 1;
            operands.push(self.draft.add(CONSTANT, 0, odd));
        }
        let masked = !wraps && self.random.once_in(2);
        // The if, its condition, the self call and the operation on its parameter take four nodes, and there are the
        // operands and the mask. The parts are what comes instead, the other arguments and what masks the first.
        let taken = 4 + operands.len() + usize::from(masked);
        let sizes = self.split(size - taken, parameters + usize::from(masked));
        let dealt = self.deal(due, &sizes);
        self.draft.items[step].children = operands;
        let mut arguments = vec![step];
        for (size, due) in sizes.iter().zip(&dealt).skip(1) {
            arguments.push(self.expression(*size, false, *due));
        }
        if masked {
            let mask = self.draft.add(PRIMITIVE, AND, 0);
            self.draft.items[mask].children = vec![step, arguments.remove(1)];
            arguments[0] = mask;
        }
        self.draft.items[again].children = arguments;
        let other = self.expression(sizes[0], true, dealt[0]);
        self.draft.items[node].children = vec![condition, again, other];
        node
    }
}
