//! Calls whose bodies come near a limit, and at times pass it.

use image::kinds::*;

use crate::parameters::Call;
use crate::parameters::generate::Made;
use crate::rng::Rng;
use crate::tree::{Kind, Node, Operand};

/// What an item of a tuple is, and what it adds: blocks, statements, locals.
type Item = (fn(u16) -> Node, [usize; 3]);

const ITEMS: [Item; 3] = [
    (|_| node(Kind::Lit(Operand::integer(UINT, 7))), [1, 2, 1]),
    (|_| node(Kind::Constant(Operand { kind: CONSTANT, bytes: vec![7] })), [1, 4, 2]),
    (|binding| node(Kind::Bind { binding, sub: None, mode: BY_VALUE, annotation: 2 }), [0, 2, 0]),
];

const LIMITS: [usize; 3] = [512, 1024, 512];

fn node(kind: Kind) -> Node {
    Node { type_: 0, derefs: 0, kind }
}

/// Tuples of items of one sort: one tuple as several parameters, and one more that brings the
/// blocks, statements or locals near the limit.
pub fn near(rng: &mut Rng) -> Call {
    let mut made = Made::default();
    made.m.add_integer_type(1, 0);
    let (item, costs) = rng.pick(&ITEMS);
    let bindings = rng.pick(&[1, 1, 100, 256]);
    made.m.bindings = vec![[0, 1]; bindings];
    let limited = if costs[0] == 0 { 1 } else { rng.below(3) };
    let count = rng.between(8, 60);
    let before = [1 + (count + 1) * costs[0], 0, count + 1 + bindings];
    let room = LIMITS[limited] - before[limited];
    let items = (room / costs[limited] + rng.below(5)).saturating_sub(2);
    let each = items / (count + 1);
    let big = tuple(&mut made, rng, item, bindings, each);
    let rest = tuple(&mut made, rng, item, bindings, items - count * each);
    made.list = vec![big; count];
    made.list.insert(rng.between(0, count), rest);
    made.call()
}

/// A tuple pattern of so many items as a parameter.
fn tuple(made: &mut Made, rng: &mut Rng, item: fn(u16) -> Node, bindings: usize, count: usize) -> (u16, u16) {
    let type_ = made.m.add_tuple_type(&vec![0; count]);
    let args = (0..count).map(|_| item(rng.row(bindings))).collect();
    let root = Node { type_, derefs: 0, kind: Kind::Tuple { args, ellipsis: None } };
    (root.put(&mut made.m), type_)
}
