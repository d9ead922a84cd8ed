//! The rows of docs/BODY.md of what the published text makes of a body.

use image::Tables;
use image::kinds::{RANGE, STRING};

use super::{
    BinOp, BorrowKind, HirDatabase, MirSpan, Operand, OperandKind, PlaceElem, ProjectionElem, Rvalue, Statement,
    StatementKind, StoredPlace, TerminatorKind,
};
use crate::mir::FieldIndex;

const GOTO: u16 = 1;
const SWITCH: u16 = 2;
const UNREACHABLE: u16 = 3;
const DROP: u16 = 4;

const LIVE: u16 = 1;
const DEAD: u16 = 2;
const COPY: u16 = 3;
const REF: u16 = 4;
const MUT: u16 = 5;
const LEN: u16 = 6;
const DISCR: u16 = 7;
const IS_CONSTANT: u16 = 8;
const EQ: u16 = 9;
const LE: u16 = 10;
const GE: u16 = 11;
const GT: u16 = 12;

const OF_LOCAL: u16 = 1;
const OF_CONSTANT: u16 = 2;

/// A place's element as kind, a and b.
pub type Element = [u16; 3];

/// The words of rows, each as far as they are not 0; `tables` has what a row tells of the image.
pub struct Rows<'a> {
    pub tables: &'a Tables,
    pub db: &'a dyn HirDatabase,
}

pub fn terminator(kind: &TerminatorKind) -> Vec<u16> {
    match kind {
        TerminatorKind::Goto { target } => vec![GOTO, 0, target.number() as u16],
        TerminatorKind::Unreachable => vec![UNREACHABLE],
        TerminatorKind::Drop { place, target, .. } => {
            vec![DROP, place.local.number() as u16, target.number() as u16]
        }
        TerminatorKind::SwitchInt { discr, targets } if targets.all_targets().len() == 2 => {
            let OperandKind::Copy(tested) = &discr.kind else { panic!("a switch looks at {discr:?}") };
            let (value, then) = targets.iter().next().expect("one value");
            let (then, other) = (then.number() as u16, targets.otherwise().number() as u16);
            [vec![SWITCH, tested.local.number() as u16, then, other], halves(&value.to_le_bytes())].concat()
        }
        other => panic!("a call sets no {other:?}"),
    }
}

fn halves(bytes: &[u8]) -> Vec<u16> {
    let mut wide = [0; 16];
    wide[..bytes.len()].copy_from_slice(bytes);
    wide.chunks(2).map(|half| u16::from_le_bytes([half[0], half[1]])).collect()
}

fn element(element: &PlaceElem) -> Element {
    match *element {
        ProjectionElem::Deref => [0, 0, 0],
        ProjectionElem::Field(FieldIndex(field)) => [1, field as u16, 0],
        ProjectionElem::ConstantIndex { offset, from_end } => [2 + u16::from(from_end), offset as u16, 0],
        ProjectionElem::Subslice { from, to } => [4, from as u16, to as u16],
        ProjectionElem::Downcast(variant) => [5, variant.number() as u16, 0],
        ref other => panic!("no place has {other:?}"),
    }
}

fn place(place: &StoredPlace) -> Vec<u16> {
    let elements = place.projection.as_slice();
    let mut words = vec![place.local.number() as u16, elements.len() as u16];
    for [kind, a, b] in elements.iter().map(element) {
        words.extend([kind + 8 * b, a]);
    }
    words
}

impl Rows<'_> {
    pub fn statement(&self, block: usize, statement: &Statement) -> Vec<u16> {
        let row = |kind: u16, local: usize| vec![block as u16, kind, local as u16];
        match &statement.kind {
            StatementKind::StorageLive(local) => row(LIVE, local.number()),
            StatementKind::StorageDead(local) => row(DEAD, local.number()),
            StatementKind::Assign(target, value) => {
                let (kind, words) = self.rvalue(value, statement.span);
                [row(kind, target.local.number()), words].concat()
            }
            other => panic!("a call makes no {other:?}"),
        }
    }

    /// A kind, and the words from the left operand on.
    fn rvalue(&self, value: &Rvalue, span: MirSpan) -> (u16, Vec<u16>) {
        let of_place = |kind: u16, of: &StoredPlace| (kind, [vec![0; 12], place(of)].concat());
        match value {
            Rvalue::Use(Operand { kind: OperandKind::Copy(of), .. }) => of_place(COPY, of),
            Rvalue::Use(operand) => (IS_CONSTANT, self.operand(operand, span, false)),
            Rvalue::Ref(BorrowKind::Shared, of) => of_place(REF, of),
            Rvalue::Ref(BorrowKind::Mut { .. }, of) => of_place(MUT, of),
            Rvalue::Len(of) => of_place(LEN, of),
            Rvalue::Discriminant(of) => of_place(DISCR, of),
            Rvalue::CheckedBinaryOp(operator, left, right) => {
                let kind = match operator {
                    BinOp::Eq => EQ,
                    BinOp::Le => LE,
                    BinOp::Ge => GE,
                    BinOp::Gt => GT,
                    other => panic!("no test is {other:?}"),
                };
                let OperandKind::Copy(of) = &right.kind else { panic!("a test looks at {right:?}") };
                (kind, [self.operand(left, span, kind != LE), place(of)].concat())
            }
            other => panic!("a call makes no {other:?}"),
        }
    }

    /// Twelve words. What the Rust does not keep, the type of an evaluated constant and where a
    /// string's bytes lie, the image's row of the pattern says that the statement was made for;
    /// `last` is whether a range's end is meant.
    fn operand(&self, operand: &Operand, span: MirSpan, last: bool) -> Vec<u16> {
        let constant = |bytes: &[u8], type_: u16, offset: u16| {
            [vec![OF_CONSTANT, bytes.len() as u16, type_, offset], halves(bytes)].concat()
        };
        let asked = || {
            let MirSpan::PatId(pattern) = span else { panic!("a constant for {span:?}") };
            self.tables.patterns[pattern.number()]
        };
        match &operand.kind {
            OperandKind::Copy(of) => [vec![OF_LOCAL, of.local.number() as u16], vec![0; 10]].concat(),
            OperandKind::Allocation { allocation } => {
                let text = allocation.contents().map(|_| self.text_at(asked(), last));
                constant(allocation.memory(), allocation.type_number(), text.unwrap_or(0))
            }
            OperandKind::Constant { konst, .. } => {
                constant(&self.db.evaluated_bytes(konst.definition()), asked()[1], 0)
            }
            other => panic!("no operand is {other:?}"),
        }
    }

    fn text_at(&self, [kind, _, _, a, b, ..]: [u16; 7], last: bool) -> u16 {
        let start = if kind == RANGE && last { b } else { a };
        let [sort, offset, _] = *self.tables.words(start, 3) else { panic!("no operand at {start}") };
        assert!(sort >= STRING, "a string's operand");
        offset
    }
}
