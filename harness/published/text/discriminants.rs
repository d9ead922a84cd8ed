//! Document 02's discriminant locals, given to a body of the Rust's before it is printed. The Rust
//! makes one local at the first test of a discriminant and sets it again at each later one; here
//! each test has a local of its own, live right before it is set.

use std::vec;

use super::replacements::places_of;
use super::{
    BasicBlock, DropScope, Local, LocalId, MirBody, MirSpan, Rvalue, Statement, StatementKind, TerminatorKind,
};
use crate::mir::OperandKind;
use crate::trace;

/// Gives the tests of a walk their locals and the last scope their entries, and answers whether
/// anything became another. All statements that there are were made by the walk. The locals that it
/// made are numbered anew, in the order in which they are live.
pub(super) fn part(body: &mut MirBody<'_>, scopes: &mut [DropScope]) -> bool {
    let all = || body.basic_blocks.values().iter().flat_map(|block| &block.statements);
    let mut tests = all().filter_map(set_by_test);
    let (Some(shared), Some(_)) = (tests.next(), tests.next()) else { return false };
    let marked = all().filter(|statement| matches!(statement.kind, StatementKind::StorageLive(_))).count();
    let heard = trace::so_far();
    let base = heard.base.expect("a pattern was entered");
    let mut parting = Parting::new(body, shared, base);
    heard.order.into_iter().for_each(|block| parting.take(block));
    let order = parting.order.clone();
    if let Some(scope) = scopes.last_mut() {
        scope.locals.truncate(scope.locals.len() - marked);
        scope.locals.append(&mut parting.marks);
    }
    parting.finish(body);
    let numbered: Vec<usize> = (base..body.locals.len()).collect();
    assert_eq!(live_by_tests(body, base), numbered, "locals are numbered in the order of the tests");
    trace::ordered(order, body.basic_blocks.values());
    true
}

/// The locals from `base` on in the order in which tests make them live. A test is a switch, and comes
/// where its then block is numbered.
fn live_by_tests(body: &MirBody<'_>, base: usize) -> Vec<usize> {
    let then = |block: &BasicBlock| match &block.terminator.as_ref()?.kind {
        TerminatorKind::SwitchInt { targets, .. } => targets.iter().next().map(|(_, then)| then.number()),
        _ => None,
    };
    let mut tests: Vec<&BasicBlock> = body.basic_blocks.values().iter().collect();
    tests.retain(|&block| then(block).is_some());
    tests.sort_by_key(|&block| then(block));
    let live = |statement: &Statement| match statement.kind {
        StatementKind::StorageLive(local) => Some(local.number()).filter(|&number| number >= base),
        _ => None,
    };
    tests.into_iter().flat_map(|block| &block.statements).filter_map(live).collect()
}

/// The local that a statement sets to a discriminant.
fn set_by_test(statement: &Statement) -> Option<LocalId> {
    match &statement.kind {
        StatementKind::Assign(target, Rvalue::Discriminant(_)) => Some(target.local),
        _ => None,
    }
}

struct Parting {
    /// The Rust's one local of all tests, and its row.
    shared: LocalId,
    row: Local,
    /// The first local of the walk.
    base: usize,
    /// The rows that are left of the Rust's locals, and each block's statements that are left.
    rows: Vec<Local>,
    before: Vec<vec::IntoIter<Statement>>,
    /// What each local of the Rust's is now; of the shared one, at the test before.
    numbers: Vec<LocalId>,
    locals: Vec<Local>,
    statements: Vec<Vec<Statement>>,
    order: Vec<usize>,
    /// The locals in the order in which they are marked live.
    marks: Vec<LocalId>,
    /// The local of the test that a block ends with.
    tested: Vec<Option<LocalId>>,
}

impl Parting {
    fn new(body: &mut MirBody<'_>, shared: LocalId, base: usize) -> Parting {
        let rows: Vec<Local> = body.locals.values().to_vec();
        let take = |block: &mut Vec<Statement>| std::mem::take(block).into_iter();
        let before: Vec<_> =
            body.basic_blocks.iter_mut().map(|(_, block)| take(&mut block.statements)).collect();
        Parting {
            shared,
            row: rows[shared.number()].clone(),
            base,
            numbers: (0..rows.len()).map(LocalId::from_number).collect(),
            locals: rows[..base].to_vec(),
            rows,
            statements: vec![Vec::new(); before.len()],
            tested: vec![None; before.len()],
            before,
            order: Vec::new(),
            marks: Vec::new(),
        }
    }

    /// Takes over the next statement of a block. The shared local's own mark is left out.
    fn take(&mut self, block: usize) {
        let mut statement = self.before[block].next().expect("a statement that was heard of");
        if let StatementKind::StorageLive(local) = statement.kind {
            if local == self.shared {
                return;
            }
            if local.number() >= self.base {
                self.numbers[local.number()] = self.new_local(self.rows[local.number()].clone());
            }
        }
        if set_by_test(&statement).is_some() {
            let own = self.new_local(self.row.clone());
            self.numbers[self.shared.number()] = own;
            self.tested[block] = Some(own);
            self.push(block, StatementKind::StorageLive(own).with_span(MirSpan::Unknown));
        }
        match &mut statement.kind {
            StatementKind::StorageLive(local) => *local = self.numbers[local.number()],
            StatementKind::Assign(target, value) => {
                target.local = self.numbers[target.local.number()];
                for place in places_of(value) {
                    place.local = self.numbers[place.local.number()];
                }
            }
            other => panic!("a walk makes no {other:?}"),
        }
        self.push(block, statement);
    }

    fn new_local(&mut self, row: Local) -> LocalId {
        self.locals.push(row);
        LocalId::from_number(self.locals.len() - 1)
    }

    fn push(&mut self, block: usize, statement: Statement) {
        if let StatementKind::StorageLive(local) = statement.kind {
            self.marks.push(local);
        }
        self.statements[block].push(statement);
        self.order.push(block);
    }

    /// Writes back what was made; a switch looks at the local of its own test.
    fn finish(self, body: &mut MirBody<'_>) {
        assert!(self.before.iter().all(|left| left.len() == 0), "each statement was heard of");
        for ((block, row), statements) in body.basic_blocks.iter_mut().zip(self.statements) {
            row.statements = statements;
            let Some(end) = &mut row.terminator else { continue };
            if let TerminatorKind::SwitchInt { discr, .. } = &mut end.kind
                && let OperandKind::Copy(place) = &mut discr.kind
            {
                place.local = self.tested[block.number()].unwrap_or(self.numbers[place.local.number()]);
            }
        }
        body.locals = self.locals.into_iter().collect();
    }
}
