//! The calls on a handed-in body, its scopes and patterns, for the harness, under a name that mir.rs
//! hands on from lower.rs.

use std::panic::{self, AssertUnwindSafe};
use std::thread;

use super::discriminants::part;
use super::replacements::replace;
use super::rows::{self, Element, Rows};
use super::struck::strike_out;
use super::{
    Arena, BasicBlock, BasicBlockId, BindingId, DropScope, DropScopeToken, ExpressionStore, HirDatabase,
    InferBodyId, InferenceResult, Local, LocalId, MirLowerCtx, MirSpan, PatId, Place, PlaceElem,
    ProjectionElem, Result, Ty,
};
use crate::answer::{Changed, Listed};
use crate::calls::{Call, CallAnswer, Handed, Made};
use crate::mir::{FieldIndex, Projection, pretty};
use crate::trace;
use crate::world::World;

/// What a call on a pattern came to: its answer's words, an error or a panic.
pub type Matched<'db> = thread::Result<Result<'db, Listed>>;

/// Does a call on a body whose blocks have no statements and no terminators, as what they have is
/// not looked at.
pub fn lower_body_to_mir<'db>(
    world: &'db World,
    store: &ExpressionStore,
    infer: &InferenceResult<'db>,
    handed: &Handed,
    call: Call,
) -> (Made, Option<Matched<'db>>) {
    let mut ctx = MirLowerCtx::new(world, InferBodyId::default(), store, infer);
    ctx.result.basic_blocks = Arena::new();
    for _ in 0..handed.blocks {
        ctx.result.basic_blocks.alloc(BasicBlock::default());
    }
    for &type_ in &handed.locals {
        ctx.result.locals.alloc(Local { ty: Ty::numbered(type_).store() });
    }
    let scope = |locals: &Vec<usize>| DropScope {
        locals: locals.iter().map(|&local| LocalId::from_number(local)).collect(),
    };
    ctx.drop_scopes = handed.scopes.iter().map(scope).collect();
    let found = handed.scopes.last().map_or(0, Vec::len);
    if !call.on_a_pattern() {
        let answer = panic::catch_unwind(AssertUnwindSafe(|| answer(&mut ctx, call)));
        trace::finish(ctx.result.basic_blocks.values());
        let struck = if call.marks_live() { strike_out(&mut ctx.drop_scopes, found) } else { 0 };
        return (Made { struck, ..made(&ctx, world, answer.unwrap_or(CallAnswer::Panicked)) }, None);
    }
    bind(&mut ctx, handed);
    let mut listing = None;
    let matched =
        panic::catch_unwind(AssertUnwindSafe(|| matched(&mut ctx, world, handed, call, &mut listing)));
    trace::finish(ctx.result.basic_blocks.values());
    let struck = strike_out(&mut ctx.drop_scopes, found);
    (Made { listing, struck, ..made(&ctx, world, CallAnswer::Done) }, Some(matched))
}

/// Hands in the bindings' locals.
fn bind(ctx: &mut MirLowerCtx<'_, '_>, handed: &Handed) {
    for (binding, local) in handed.bindings.iter().enumerate() {
        if let &Some(local) = local {
            let binding = BindingId::from_number(binding);
            ctx.result.binding_locals.insert(binding, LocalId::from_number(local));
        }
    }
}

fn element(world: &World, [kind, a, b]: Element) -> PlaceElem {
    match kind {
        0 => ProjectionElem::Deref,
        1 => ProjectionElem::Field(FieldIndex(a.into())),
        2 => ProjectionElem::ConstantIndex { offset: a.into(), from_end: false },
        3 => ProjectionElem::ConstantIndex { offset: a.into(), from_end: true },
        4 => ProjectionElem::Subslice { from: a.into(), to: b.into() },
        _ => ProjectionElem::Downcast(world.variant(a).expect("a variant")),
    }
}

/// Answers a call on a pattern, and changes what it made as document 02 has it; where that is asked
/// for, its listing too.
fn matched<'db>(
    ctx: &mut MirLowerCtx<'_, 'db>,
    world: &'db World,
    handed: &Handed,
    call: Call,
    listing: &mut Option<String>,
) -> Result<'db, Listed> {
    let block = BasicBlockId::from_number;
    let told = |number: Option<usize>| number.map_or("-".to_owned(), |number| number.to_string());
    let words = |(then, other): (BasicBlockId, Option<BasicBlockId>)| {
        format!("then {} else {}", then.number(), told(other.map(BasicBlockId::number)))
    };
    let elements = handed.elements.iter().map(|&parts| element(world, parts));
    let place =
        Place { local: LocalId::from_number(handed.root), projection: Projection::new_from_iter(elements) };
    let (pattern, blocks) = match call {
        Call::PatternMatch(p, current, other) => {
            (p, ctx.pattern_match(block(current), other.map(block), place, PatId::from_number(p))?)
        }
        Call::PatternMatchAssignment(p, current) => {
            (p, (ctx.pattern_match_assignment(block(current), place, PatId::from_number(p))?, None))
        }
        Call::MatchSelfParam(binding, current, local) => {
            let (binding, local) = (BindingId::from_number(binding), LocalId::from_number(local));
            let text = words(ctx.match_self_param(binding, block(current), local)?);
            return Ok(Listed { text, changed: Changed::default() });
        }
        other => panic!("{other:?} is on no pattern"),
    };
    trace::finish(ctx.result.basic_blocks.values());
    let parted = part(&mut ctx.result, &mut ctx.drop_scopes);
    let replaced = replace(&mut ctx.result, &world.tables, &[pattern as u16], handed.elements.len());
    *listing = handed.listed.then(|| pretty::listing(&ctx.result, blocks.0, blocks.1, world, true));
    Ok(Listed { text: words(blocks), changed: Changed { replaced, parted, ..Changed::default() } })
}

fn answer(ctx: &mut MirLowerCtx<'_, '_>, call: Call) -> CallAnswer {
    let block = BasicBlockId::from_number;
    let answered = |block: BasicBlockId| CallAnswer::Block(Some(block.number()));
    let span = MirSpan::Unknown;
    match call {
        Call::Temp(type_, current) => match ctx.temp(Ty::numbered(type_), block(current), span) {
            Ok(local) => CallAnswer::Local(local.number()),
            Err(_) => CallAnswer::Unsized,
        },
        Call::MergeBlocks(first, second) => {
            let merged = ctx.merge_blocks(first.map(block), second.map(block), span);
            CallAnswer::Block(merged.map(BasicBlockId::number))
        }
        Call::PushDropScope => {
            ctx.push_drop_scope();
            CallAnswer::Done
        }
        Call::PopAssumeDropped => {
            DropScopeToken.pop_assume_dropped(ctx);
            CallAnswer::Done
        }
        Call::PopAndDrop(current) => answered(DropScopeToken.pop_and_drop(ctx, block(current), span)),
        Call::DropUntilScope(index, current) => answered(ctx.drop_until_scope(index, block(current), span)),
        other => panic!("{other:?} is on a pattern"),
    }
}

/// What the context holds; statements in the order in which they were made, as the trace heard it.
fn made(ctx: &MirLowerCtx<'_, '_>, world: &World, answer: CallAnswer) -> Made {
    let blocks = ctx.result.basic_blocks.values();
    let rows = Rows { tables: &world.tables, db: world as &dyn HirDatabase };
    let mut next = vec![0; blocks.len()];
    let mut statements = Vec::new();
    for block in trace::so_far().order {
        statements.push(rows.statement(block, &blocks[block].statements[next[block]]));
        next[block] += 1;
    }
    let ended = |(number, block): (usize, &BasicBlock)| {
        Some((number, rows::terminator(&block.terminator.as_ref()?.kind)))
    };
    let locals_of = |scope: &DropScope| scope.locals.iter().map(|local| local.number()).collect();
    Made {
        answer,
        outcome: None,
        listing: None,
        blocks: blocks.len(),
        locals: ctx.result.locals.iter().map(|(_, local)| local.ty.number()).collect(),
        scopes: ctx.drop_scopes.iter().map(locals_of).collect(),
        struck: 0,
        statements,
        terminators: blocks.iter().enumerate().filter_map(ended).collect(),
    }
}
