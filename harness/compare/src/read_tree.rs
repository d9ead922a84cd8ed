//! A pattern of an image as a tree, and an image with only what its last pattern needs.

use std::collections::BTreeSet;

use image::kinds::*;
use image::{ABSENT, Tables};

use crate::tree::{Kind, Node, Operand};

/// The tree of a pattern of an image that keeps all rules.
pub fn tree(m: &Tables, pattern: u16) -> Node {
    let [kind, type_, derefs, a, b, c, d] = m.patterns[usize::from(pattern)];
    let one = |number: u16| Box::new(tree(m, number));
    let optional = |number: u16| (number != ABSENT).then(|| one(number));
    let items = |start: u16, count: u16| -> Vec<Node> {
        m.words(start, count.into()).iter().map(|&item| tree(m, item)).collect()
    };
    let ellipsis = (c != ABSENT).then_some(c);
    let kind = match kind {
        TUPLE => Kind::Tuple { args: items(a, b), ellipsis },
        OR => Kind::Or(items(a, b)),
        RECORD => {
            let pairs = m.words(a, 2 * usize::from(b)).chunks(2);
            let fields = pairs.map(|pair| (pair[0], tree(m, pair[1]))).collect();
            Kind::Record { fields, variant: c }
        }
        RANGE => Kind::Range { start: operand(m, a), end: operand(m, b), half_open: c == 1 },
        SLICE => Kind::Slice { prefix: items(a, b), rest: optional(d), suffix: items(a + b, c) },
        PATH if a == NAMES_CONSTANT => Kind::Constant(operand(m, b).expect("an operand")),
        PATH => Kind::Path(a, b),
        LIT => Kind::Lit(operand(m, a).expect("an operand")),
        BIND => Kind::Bind { binding: a, sub: optional(b), mode: c, annotation: d },
        TUPLE_STRUCT => Kind::TupleStruct { args: items(a, b), ellipsis, variant: d },
        REF => Kind::Ref(one(a)),
        _ => Kind::Bare(kind),
    };
    Node { type_, derefs, kind }
}

fn operand(m: &Tables, start: u16) -> Option<Operand> {
    let found = m.operand(start).filter(|_| start != ABSENT)?;
    Some(Operand { kind: found.kind, bytes: found.bytes.to_vec() })
}

/// An image of a tree over the types, variants and bindings of another.
pub fn image(m: &Tables, root: &Node) -> Tables {
    let mut new = Tables { bindings: m.bindings.clone(), ..Tables::default() };
    for &[first, count, offset] in &m.variants {
        let start = new.add_words(m.words(first, count.into()));
        let offset = usize::from(offset);
        let offset = new.add_data(&m.data[offset..offset + 16]);
        new.variants.push([start, count, offset]);
    }
    for &[kind, a, b, c, copy] in &m.types {
        let a = if kind == TUPLE_TYPE { new.add_words(m.words(a, b.into())) } else { a };
        new.add_type(kind, a, b, c, copy);
    }
    root.put(&mut new);
    new
}

/// An image whose last type, variant or binding is gone, where nothing needs it.
pub fn without_unneeded(m: &Tables, root: &Node) -> (Tables, Node) {
    let mut needs = Needs::default();
    needs.of_node(m, root);
    let root_type = m.root_type(m.patterns.len() - 1);
    needs.of_types(m, root_type.map(|type_| type_ as u16));
    let place = |set: &BTreeSet<u16>, number: u16| set.range(..number).count() as u16;
    let mut root = root.clone();
    renumber(
        &mut root,
        &|type_| place(&needs.types, type_),
        &|variant| {
            if variant == ABSENT { ABSENT } else { place(&needs.variants, variant) }
        },
        &|binding| place(&needs.bindings, binding),
    );
    let mut new = m.clone();
    new.types = needs.types.iter().map(|&type_| m.types[usize::from(type_)]).collect();
    new.variants = needs.variants.iter().map(|&v| m.variants[usize::from(v)]).collect();
    new.bindings = needs.bindings.iter().map(|&b| m.bindings[usize::from(b)]).collect();
    new.list.iter_mut().for_each(|word| *word = place(&needs.types, *word));
    for [kind, a, ..] in &mut new.types {
        match *kind {
            ADT => *a = place(&needs.variants, *a),
            REFERENCE | ARRAY | SLICE_TYPE => *a = place(&needs.types, *a),
            _ => {}
        }
    }
    new.bindings.iter_mut().for_each(|row| row[0] = place(&needs.types, row[0]));
    (new, root)
}

#[derive(Default)]
struct Needs {
    types: BTreeSet<u16>,
    variants: BTreeSet<u16>,
    bindings: BTreeSet<u16>,
}

impl Needs {
    fn of_node(&mut self, m: &Tables, node: &Node) {
        self.types.insert(node.type_);
        match node.kind {
            Kind::Record { variant, .. }
            | Kind::TupleStruct { variant, .. }
            | Kind::Path(NAMES_VARIANT, variant)
                if variant != ABSENT =>
            {
                self.variants.insert(variant);
            }
            Kind::Bind { binding, .. } | Kind::Path(NAMES_BINDING, binding) => {
                self.bindings.insert(binding);
                self.types.insert(m.bindings[usize::from(binding)][0]);
            }
            _ => {}
        }
        node.children().into_iter().for_each(|child| self.of_node(m, child));
    }

    /// The types and variants that those already needed are made of.
    fn of_types(&mut self, m: &Tables, first: Option<u16>) {
        self.types.extend(first);
        loop {
            let before = self.types.len() + self.variants.len();
            for variant in self.variants.clone() {
                let [start, count, _] = m.variants[usize::from(variant)];
                self.types.extend(m.words(start, count.into()));
            }
            for type_ in self.types.clone() {
                let [kind, a, b, _, _] = m.types[usize::from(type_)];
                match kind {
                    TUPLE_TYPE => self.types.extend(m.words(a, b.into())),
                    ADT => self.variants.extend(a..a + b),
                    REFERENCE | ARRAY | SLICE_TYPE => self.types.extend([a]),
                    _ => {}
                }
            }
            if self.types.len() + self.variants.len() == before {
                return;
            }
        }
    }
}

fn renumber(
    node: &mut Node,
    type_: &dyn Fn(u16) -> u16,
    variant_to: &dyn Fn(u16) -> u16,
    binding_to: &dyn Fn(u16) -> u16,
) {
    node.type_ = type_(node.type_);
    match &mut node.kind {
        Kind::Record { variant, .. }
        | Kind::TupleStruct { variant, .. }
        | Kind::Path(NAMES_VARIANT, variant) => *variant = variant_to(*variant),
        Kind::Bind { binding, .. } | Kind::Path(NAMES_BINDING, binding) => {
            *binding = binding_to(*binding);
        }
        _ => {}
    }
    for child in node.children_mut() {
        renumber(child, type_, variant_to, binding_to);
    }
}
