//! Stands in for pretty.rs: prints a body as document 01's listing has it.

use std::fmt::Write;

use super::{
    BasicBlock, BasicBlockId, BinOp, BorrowKind, MirBody, Operand, OperandKind, ProjectionElem, Rvalue,
    StatementKind, StoredPlace, TerminatorKind,
};
use crate::db::HirDatabase;

/// Prints with the database at hand, which has the bytes of evaluated constants. With `contents`
/// the memory of a string stands behind the string's bytes and a colon.
struct Printer<'a> {
    db: &'a dyn HirDatabase,
    contents: bool,
    text: String,
}

/// The listing of a body and of the two blocks that are returned.
pub(super) fn listing(
    body: &MirBody<'_>,
    then: BasicBlockId,
    other: Option<BasicBlockId>,
    db: &dyn HirDatabase,
    contents: bool,
) -> String {
    let mut printer = Printer { db, contents, text: String::new() };
    let other = other.map_or("-".to_owned(), |block| block.number().to_string());
    printer.line(format_args!("then {} else {other}", then.number()));
    for (local, row) in body.locals.iter() {
        printer.line(format_args!("local {} {}", local.number(), row.ty.as_ref().listed()));
    }
    for (block, row) in body.basic_blocks.iter() {
        printer.line(format_args!("bb {}", block.number()));
        printer.block(row);
    }
    printer.text
}

impl Printer<'_> {
    fn line(&mut self, text: std::fmt::Arguments<'_>) {
        writeln!(self.text, "{text}").expect("a string takes everything");
    }

    fn block(&mut self, block: &BasicBlock) {
        for statement in &block.statements {
            match &statement.kind {
                StatementKind::StorageLive(local) => {
                    self.line(format_args!("live {}", local.number()));
                }
                StatementKind::StorageDead(local) => {
                    self.line(format_args!("dead {}", local.number()));
                }
                StatementKind::Assign(target, value) => {
                    let value = self.rvalue(value);
                    self.line(format_args!("set {} {value}", place(target)));
                }
                other => self.line(format_args!("unlisted {other:?}")),
            }
        }
        match &block.terminator {
            Some(terminator) => self.terminator(&terminator.kind),
            None => self.line(format_args!("open")),
        }
    }

    fn terminator(&mut self, terminator: &TerminatorKind) {
        match terminator {
            TerminatorKind::Goto { target } => {
                self.line(format_args!("goto {}", target.number()));
            }
            TerminatorKind::Unreachable => self.line(format_args!("unreachable")),
            TerminatorKind::Drop { place: dropped, target, unwind: None } => {
                self.line(format_args!("drop {} {}", place(dropped), target.number()));
            }
            TerminatorKind::SwitchInt { discr, targets } if targets.all_targets().len() == 2 => {
                let local = match &discr.kind {
                    OperandKind::Copy(tested) => place(tested),
                    other => format!("unlisted {other:?}"),
                };
                let (value, then) = targets.iter().next().expect("one value");
                let other = targets.otherwise();
                self.line(format_args!("switch {local} {value:x} {} {}", then.number(), other.number()));
            }
            other => self.line(format_args!("unlisted {other:?}")),
        }
    }

    fn rvalue(&self, value: &Rvalue) -> String {
        match value {
            Rvalue::Use(operand) => self.operand(operand),
            Rvalue::Ref(BorrowKind::Shared, of) => format!("ref {}", place(of)),
            Rvalue::Ref(BorrowKind::Mut { .. }, of) => format!("mut {}", place(of)),
            Rvalue::Len(of) => format!("len {}", place(of)),
            Rvalue::Discriminant(of) => format!("discr {}", place(of)),
            Rvalue::CheckedBinaryOp(operator, left, right) => {
                let operator = match operator {
                    BinOp::Eq => "eq",
                    BinOp::Le => "le",
                    BinOp::Ge => "ge",
                    BinOp::Gt => "gt",
                    _ => "unlisted",
                };
                format!("{operator} {} {}", self.operand(left), self.operand(right))
            }
            other => format!("unlisted {other:?}"),
        }
    }

    fn operand(&self, operand: &Operand) -> String {
        match &operand.kind {
            OperandKind::Copy(of) => format!("copy {}", place(of)),
            OperandKind::Allocation { allocation } => {
                let bytes = hexadecimal(allocation.memory());
                match allocation.contents() {
                    Some(contents) if self.contents => format!("{bytes}:{}", hexadecimal(contents)),
                    _ => bytes,
                }
            }
            OperandKind::Constant { konst, .. } => hexadecimal(&self.db.evaluated_bytes(konst.definition())),
            other => format!("unlisted {other:?}"),
        }
    }
}

fn hexadecimal(bytes: &[u8]) -> String {
    bytes.iter().map(|byte| format!("{byte:02x}")).collect()
}

fn place(place: &StoredPlace) -> String {
    let mut text = place.local.number().to_string();
    for element in place.projection.as_slice() {
        match element {
            ProjectionElem::Deref => text.push_str(".deref"),
            ProjectionElem::Field(field) => write!(text, ".f{}", field.0).expect("a string"),
            ProjectionElem::ConstantIndex { offset, from_end } => {
                let side = if *from_end { 'e' } else { 'i' };
                write!(text, ".{side}{offset}").expect("a string");
            }
            ProjectionElem::Subslice { from, to } => {
                write!(text, ".s{from}-{to}").expect("a string");
            }
            ProjectionElem::Downcast(variant) => {
                write!(text, ".v{}", variant.number()).expect("a string");
            }
            other => write!(text, ".unlisted {other:?}").expect("a string"),
        }
    }
    text
}
