//! Document 02's two replacements, made in a body of the Rust's before it is printed: the test of a
//! half-open range's end, and the offsets of the items behind the rest of a slice pattern. A
//! statement's span is the pattern that made it.

use image::Tables;
use image::kinds::{RANGE, SLICE};

use super::{BinOp, MirBody, MirSpan, OperandKind, ProjectionElem, Rvalue, StatementKind, StoredPlace};
use crate::mir::Projection;

/// Replaces, and answers whether anything became another. The patterns that were walked are
/// `roots`; the place that each was walked at had so many elements `handed` in.
pub(super) fn replace(body: &mut MirBody<'_>, tables: &Tables, roots: &[u16], handed: usize) -> bool {
    let steps = steps(tables);
    let mut replaced = false;
    let blocks = body.basic_blocks.iter_mut();
    for statement in blocks.flat_map(|(_, block)| &mut block.statements) {
        let StatementKind::Assign(_, value) = &mut statement.kind else { continue };
        let MirSpan::PatId(pattern) = statement.span else { continue };
        replaced |= replace_operator(value, &tables.patterns[pattern.number()]);
        // A pattern may lie below several roots: the way that was walked passes as many suffix items
        // as the place has offsets from the end.
        let way = |offsets: usize| {
            let mut ways = roots.iter().filter_map(|&root| passed(&steps, root, pattern.number() as u16));
            ways.find(|way| way.len() == offsets)
        };
        for place in places_of(value) {
            replaced |= replace_offsets(place, handed, &way);
        }
    }
    replaced
}

/// `ge` of a half-open range becomes `gt`.
fn replace_operator(value: &mut Rvalue, &[kind, _, _, _, _, c, _]: &[u16; 7]) -> bool {
    match value {
        Rvalue::CheckedBinaryOp(operator @ BinOp::Ge, _, _) if kind == RANGE && c == 1 => {
            *operator = BinOp::Gt;
            true
        }
        _ => false,
    }
}

/// The places that a value is of: one, or those that are compared.
pub(super) fn places_of(value: &mut Rvalue) -> Vec<&mut StoredPlace> {
    let operands = match value {
        Rvalue::Use(operand) => vec![operand],
        Rvalue::CheckedBinaryOp(_, left, right) => vec![left, right],
        Rvalue::Ref(_, place) | Rvalue::Len(place) | Rvalue::Discriminant(place) => return vec![place],
        _ => return Vec::new(),
    };
    let mut places = Vec::new();
    for operand in operands {
        if let OperandKind::Copy(place) = &mut operand.kind {
            places.push(place);
        }
    }
    places
}

/// The j-th `.e` behind the elements handed in belongs to the j-th suffix item on the way.
fn replace_offsets(
    place: &mut StoredPlace,
    handed: usize,
    way: impl Fn(usize) -> Option<Vec<SuffixItem>>,
) -> bool {
    let mut elements = place.projection.as_slice().to_vec();
    let from_end = |element| match element {
        &mut ProjectionElem::ConstantIndex { ref mut offset, from_end: true } => Some(offset),
        _ => None,
    };
    let offsets: Vec<&mut u64> = elements.iter_mut().skip(handed).filter_map(from_end).collect();
    if offsets.is_empty() {
        return false;
    }
    let way = way(offsets.len()).expect("a way from a root that passes as many suffix items");
    for (offset, item) in offsets.into_iter().zip(way) {
        assert_eq!(*offset, item.number, "the Rust's offset is the item's number");
        *offset = item.of - 1 - item.number;
    }
    let projection = Projection::new_from_iter(elements).store();
    std::mem::replace(&mut place.projection, projection.clone()) != projection
}

/// An item behind the rest of a slice pattern: its number, and how many there are.
#[derive(Clone, Copy)]
struct SuffixItem {
    number: u64,
    of: u64,
}

/// For each pattern the one above it, and where it is a suffix item of that, which.
type Steps = Vec<Option<(u16, Option<SuffixItem>)>>;

fn steps(tables: &Tables) -> Steps {
    let mut steps: Steps = vec![None; tables.patterns.len()];
    for (above, row) in (0..).zip(&tables.patterns) {
        let [kind, _, _, _, prefix, suffix, _] = *row;
        for (place, part) in (0..).zip(tables.subpatterns(row)) {
            let (first, of) = (u64::from(prefix), u64::from(suffix));
            let is_suffix = kind == SLICE && (first..first + of).contains(&place);
            let item = is_suffix.then(|| SuffixItem { number: place - first, of });
            steps[usize::from(part)] = Some((above, item));
        }
    }
    steps
}

/// The suffix items that are passed on the way from a root to a pattern, if that is below it.
fn passed(steps: &Steps, root: u16, pattern: u16) -> Option<Vec<SuffixItem>> {
    let (mut found, mut at) = (Vec::new(), pattern);
    while at != root {
        let (above, item) = steps[usize::from(at)]?;
        found.extend(item);
        at = above;
    }
    found.reverse();
    Some(found)
}
