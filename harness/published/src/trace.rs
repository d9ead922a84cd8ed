//! What a lowering did besides the body it made: visits, the pattern that was entered last, the
//! Bind whose local was asked for last, and the first limit of document 01 that was passed. The
//! Rust has no limits, and goes on. As document 02 has it, each test of a discriminant behind the
//! first counts a local, an entry and a statement more than the Rust makes, and a live mark of a local
//! that a scope holds counts no entry.

use std::any::Any;
use std::cell::RefCell;
use std::collections::BTreeSet;

use crate::mir::{BasicBlock, Local, Rvalue, StatementKind};

pub const MOST_BLOCKS: usize = 512;
pub const MOST_STATEMENTS: usize = 1024;
pub const MOST_LOCALS: usize = 512;
pub const MOST_ENTRIES: usize = 1024;
pub const MOST_ELEMENTS: usize = 16;

#[derive(Debug, Clone, Default, PartialEq, Eq)]
pub struct Trace {
    /// How often each pattern was visited.
    pub visits: Vec<u32>,
    pub entered: Option<usize>,
    pub binds: Option<usize>,
    /// The pattern that was entered last, if there is one, when the first limit was passed.
    pub passed: Option<Option<usize>>,
    pub statements: usize,
    /// How many locals there are, and how many there were when the first pattern was entered.
    pub locals: usize,
    pub base: Option<usize>,
    /// The tests of discriminants.
    pub tests: usize,
    /// How many entries the scopes have, and the locals that they hold.
    pub entries: usize,
    held: BTreeSet<usize>,
    /// The block of each statement, in the order in which they were made.
    pub order: Vec<usize>,
    touched: Touched,
}

/// The block that was about to change last, and how many statements it had.
#[derive(Debug, Clone, Copy, Default, PartialEq, Eq)]
struct Touched {
    block: usize,
    had: usize,
    entered: Option<usize>,
}

thread_local! {
    static TRACE: RefCell<Trace> = RefCell::default();
}

/// Starts anew, for so many patterns.
pub fn start(patterns: usize) {
    la_arena::probe::listen(changes);
    TRACE.set(Trace { visits: vec![0; patterns], ..Trace::default() });
}

/// So many statements were there before, and entries of these locals.
pub fn found(statements: usize, entries: &[usize]) {
    TRACE.with_borrow_mut(|trace| {
        (trace.statements, trace.entries) = (statements, entries.len());
        trace.held = entries.iter().copied().collect();
    });
}

/// What was heard since the start.
pub fn so_far() -> Trace {
    TRACE.with_borrow(Clone::clone)
}

pub fn entered(pattern: usize) {
    if cfg!(feature = "quiet") {
        return;
    }
    TRACE.with_borrow_mut(|trace| {
        trace.base.get_or_insert(trace.locals);
        trace.visits[pattern] += 1;
        trace.entered = Some(pattern);
    });
}

pub fn binds(pattern: usize) {
    if cfg!(feature = "quiet") {
        return;
    }
    TRACE.with_borrow_mut(|trace| trace.binds = Some(pattern));
}

/// A place with so many elements was made.
pub fn projected(elements: usize) {
    if cfg!(feature = "quiet") {
        return;
    }
    TRACE.with_borrow_mut(|trace| trace.limit(elements > MOST_ELEMENTS, trace.entered));
}

/// The last push is counted when the next block is about to change, or at the end.
pub fn finish(blocks: &[BasicBlock]) {
    if cfg!(feature = "quiet") {
        return;
    }
    TRACE.with_borrow_mut(|trace| trace.count_pushed(blocks));
}

/// The walk through patterns is over, and another call follows.
pub fn left(blocks: &[BasicBlock]) {
    finish(blocks);
    TRACE.with_borrow_mut(|trace| trace.entered = None);
}

/// The statements of these blocks are others now, made in this order.
pub fn ordered(order: Vec<usize>, blocks: &[BasicBlock]) {
    TRACE.with_borrow_mut(|trace| {
        trace.order = order;
        trace.touched.had = blocks[trace.touched.block].statements.len();
    });
}

fn changes(entries: &dyn Any, number: usize) {
    TRACE.with_borrow_mut(|trace| {
        if let Some(locals) = entries.downcast_ref::<Vec<Local>>() {
            trace.locals = locals.len() + trace.tests.saturating_sub(1);
            trace.limit(trace.locals > MOST_LOCALS, trace.entered);
        } else if let Some(blocks) = entries.downcast_ref::<Vec<BasicBlock>>() {
            trace.count_pushed(blocks);
            trace.limit(blocks.len() > MOST_BLOCKS, trace.entered);
            let had = blocks[number].statements.len();
            trace.touched = Touched { block: number, had, entered: trace.entered };
        }
    });
}

impl Trace {
    /// How often each pattern was visited, as a line.
    pub fn visits_line(&self) -> String {
        let counts: String = self.visits.iter().map(|count| format!(" {count}")).collect();
        format!("visits{counts}\n")
    }

    fn limit(&mut self, passed: bool, entered: Option<usize>) {
        if passed && self.passed.is_none() {
            self.passed = Some(entered);
        }
    }

    /// A discriminant is tested: behind the first test the local is a new one all the same.
    fn test(&mut self) {
        if self.tests > 0 {
            self.locals += 1;
            self.statements += 1;
            self.entries += 1;
        }
        self.tests += 1;
    }

    /// Counts what the touched block got since.
    fn count_pushed(&mut self, blocks: &[BasicBlock]) {
        let Touched { block: number, had, entered } = self.touched;
        let Some(block) = blocks.get(number) else { return };
        for statement in &block.statements[had..] {
            self.order.push(number);
            self.statements += 1;
            match statement.kind {
                StatementKind::StorageLive(local) if self.held.insert(local.number()) => self.entries += 1,
                StatementKind::Assign(_, Rvalue::Discriminant(_)) => self.test(),
                _ => {}
            }
        }
        self.touched.had = block.statements.len();
        let marks = self.statements > MOST_STATEMENTS || self.entries > MOST_ENTRIES;
        self.limit(marks || self.locals > MOST_LOCALS, entered);
    }
}
