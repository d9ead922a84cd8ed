//! An image's last pattern, lowered again and again: for measuring.

use std::rc::Rc;

use hir_def::expr_store::ExpressionStore;
use hir_def::hir::PatId;
use image::Tables;

use crate::InferenceResult;
use crate::db::HirDatabase;
use crate::mir::{MirBody, Rvalue, StatementKind, lower_to_mir_with_store};
use crate::next_solver::Ty;
use crate::store;
use crate::world::World;

/// All that the lowering asks for, ready.
pub struct Prepared {
    world: Rc<World>,
    store: ExpressionStore,
    inference: InferenceResult<'static>,
    place_type: u16,
    root: PatId,
    entries: usize,
}

/// What a lowering made: the two blocks, and how many blocks, statements and locals.
#[derive(Debug, Clone, Copy, PartialEq, Eq)]
pub struct Made {
    pub then: usize,
    pub other: Option<usize>,
    pub blocks: usize,
    pub statements: usize,
    pub locals: usize,
}

impl Prepared {
    /// Of an image that keeps all rules, against a place of a type; the scope has so many entries.
    pub fn new(tables: &Tables, place_type: usize, entries: usize) -> Prepared {
        let world = World::enter(tables.clone());
        let store = store::store(tables);
        let inference = store::inference(&world);
        let root = PatId::from_number(tables.patterns.len() - 1);
        Prepared { world, store, inference, place_type: place_type as u16, root, entries }
    }

    /// From now on this image is the thread's.
    pub fn enter(&self) {
        World::enter_again(&self.world);
    }

    /// Makes the context, local 0 and the bindings' locals, lowers, and drops what was made; none for an error.
    pub fn lower(&self) -> Option<Made> {
        self.made(|_| 0)
    }

    /// The same with document 02's local and live mark for each test of a discriminant behind the first.
    pub fn lower_parted(&self) -> Option<Made> {
        self.made(|body| {
            let statements = body.basic_blocks.values().iter().flat_map(|block| &block.statements);
            let is_test =
                |kind: &StatementKind| matches!(kind, StatementKind::Assign(_, Rvalue::Discriminant(_)));
            statements.filter(|statement| is_test(&statement.kind)).count().saturating_sub(1)
        })
    }

    /// So many locals and live marks are added.
    fn made(&self, added: impl FnOnce(&MirBody<'_>) -> usize) -> Option<Made> {
        let db: &dyn HirDatabase = &*self.world;
        let place_type = Ty::numbered(self.place_type);
        let (store, inference) = (&self.store, &self.inference);
        let lowered =
            lower_to_mir_with_store(db, store, inference, place_type, self.root, false, self.entries).ok()?;
        let added = added(&lowered.body);
        let blocks = lowered.body.basic_blocks.values();
        Some(Made {
            then: lowered.then.number(),
            other: lowered.other.map(|block| block.number()),
            blocks: lowered.body.basic_blocks.len(),
            statements: blocks.iter().map(|block| block.statements.len()).sum::<usize>() + added,
            locals: lowered.body.locals.len() + added,
        })
    }
}
