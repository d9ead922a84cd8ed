//! Patterns as trees, before they are rows of an image.

use image::kinds::*;
use image::{ABSENT, Tables};

/// A pattern: its type, how many derefs come before it, and what it is.
#[derive(Debug, Clone, PartialEq)]
pub struct Node {
    pub type_: u16,
    pub derefs: u16,
    pub kind: Kind,
}

#[derive(Debug, Clone, PartialEq)]
pub enum Kind {
    /// A kind whose words are not looked at.
    Bare(u16),
    Tuple {
        args: Vec<Node>,
        ellipsis: Option<u16>,
    },
    Or(Vec<Node>),
    Record {
        fields: Vec<(u16, Node)>,
        variant: u16,
    },
    Range {
        start: Option<Operand>,
        end: Option<Operand>,
        half_open: bool,
    },
    Slice {
        prefix: Vec<Node>,
        rest: Option<Box<Node>>,
        suffix: Vec<Node>,
    },
    /// A path that is no constant: its kind and what it names.
    Path(u16, u16),
    Constant(Operand),
    Lit(Operand),
    Bind {
        binding: u16,
        sub: Option<Box<Node>>,
        mode: u16,
        annotation: u16,
    },
    TupleStruct {
        args: Vec<Node>,
        ellipsis: Option<u16>,
        variant: u16,
    },
    Ref(Box<Node>),
}

/// An operand: its kind and its bytes.
#[derive(Debug, Clone, PartialEq)]
pub struct Operand {
    pub kind: u16,
    pub bytes: Vec<u8>,
}

impl Operand {
    pub fn integer(kind: u16, value: i128) -> Operand {
        Operand { kind, bytes: value.to_le_bytes().to_vec() }
    }

    fn put(&self, m: &mut Tables) -> u16 {
        m.add_operand(self.kind, &self.bytes)
    }
}

impl Node {
    pub fn wild(type_: u16) -> Node {
        Node { type_, derefs: 0, kind: Kind::Bare(WILD) }
    }

    /// Adds the tree's patterns to an image, children first; answers the root's number.
    pub fn put(&self, m: &mut Tables) -> u16 {
        let (kind, words) = self.words(m);
        m.add_pattern(kind, self.type_, self.derefs, words)
    }

    fn words(&self, m: &mut Tables) -> (u16, [u16; 4]) {
        let absent = |word: &Option<u16>| word.unwrap_or(ABSENT);
        match &self.kind {
            Kind::Bare(kind) => (*kind, [0; 4]),
            Kind::Tuple { args, ellipsis } => {
                let (list, count) = put_all(args, m);
                (TUPLE, [list, count, absent(ellipsis), 0])
            }
            Kind::Or(items) => {
                let (list, count) = put_all(items, m);
                (OR, [list, count, 0, 0])
            }
            Kind::Record { fields, variant } => {
                let (list, count) = put_fields(fields, m);
                (RECORD, [list, count, *variant, 0])
            }
            Kind::Range { start, end, half_open } => {
                let mut put = |end: &Option<Operand>| end.as_ref().map_or(ABSENT, |end| end.put(m));
                (RANGE, [put(start), put(end), u16::from(*half_open), 0])
            }
            Kind::Slice { prefix, rest, suffix } => put_slice(prefix, rest.as_deref(), suffix, m),
            Kind::Path(kind, names) => (PATH, [*kind, *names, 0, 0]),
            Kind::Constant(operand) => (PATH, [NAMES_CONSTANT, operand.put(m), 0, 0]),
            Kind::Lit(operand) => (LIT, [operand.put(m), 0, 0, 0]),
            Kind::Bind { binding, sub, mode, annotation } => {
                let sub = sub.as_ref().map_or(ABSENT, |sub| sub.put(m));
                (BIND, [*binding, sub, *mode, *annotation])
            }
            Kind::TupleStruct { args, ellipsis, variant } => {
                let (list, count) = put_all(args, m);
                (TUPLE_STRUCT, [list, count, absent(ellipsis), *variant])
            }
            Kind::Ref(inner) => (REF, [inner.put(m), 0, 0, 0]),
        }
    }

    /// The patterns directly below, rests included.
    pub fn children(&self) -> Vec<&Node> {
        match &self.kind {
            Kind::Tuple { args, .. } | Kind::TupleStruct { args, .. } | Kind::Or(args) => {
                args.iter().collect()
            }
            Kind::Record { fields, .. } => fields.iter().map(|(_, item)| item).collect(),
            Kind::Slice { prefix, rest, suffix } => {
                prefix.iter().chain(rest.as_deref()).chain(suffix).collect()
            }
            Kind::Bind { sub: Some(inner), .. } | Kind::Ref(inner) => vec![&**inner],
            _ => Vec::new(),
        }
    }

    /// The same, to be changed.
    pub fn children_mut(&mut self) -> Vec<&mut Node> {
        match &mut self.kind {
            Kind::Tuple { args, .. } | Kind::TupleStruct { args, .. } | Kind::Or(args) => {
                args.iter_mut().collect()
            }
            Kind::Record { fields, .. } => fields.iter_mut().map(|(_, item)| item).collect(),
            Kind::Slice { prefix, rest, suffix } => {
                prefix.iter_mut().chain(rest.as_deref_mut()).chain(suffix).collect()
            }
            Kind::Bind { sub: Some(inner), .. } | Kind::Ref(inner) => vec![&mut **inner],
            _ => Vec::new(),
        }
    }

    /// A Bind stands in the tree.
    pub fn binds(&self) -> bool {
        matches!(self.kind, Kind::Bind { .. }) || self.children().into_iter().any(Node::binds)
    }

    pub fn nodes(&self) -> usize {
        1 + self.children().into_iter().map(Node::nodes).sum::<usize>()
    }
}

fn put_all(items: &[Node], m: &mut Tables) -> (u16, u16) {
    let numbers: Vec<u16> = items.iter().map(|item| item.put(m)).collect();
    (m.add_words(&numbers), numbers.len() as u16)
}

fn put_fields(fields: &[(u16, Node)], m: &mut Tables) -> (u16, u16) {
    let pairs: Vec<[u16; 2]> = fields.iter().map(|(field, item)| [*field, item.put(m)]).collect();
    (m.add_words(pairs.as_flattened()), pairs.len() as u16)
}

fn put_slice(prefix: &[Node], rest: Option<&Node>, suffix: &[Node], m: &mut Tables) -> (u16, [u16; 4]) {
    let rest = rest.map_or(ABSENT, |rest| rest.put(m));
    let numbers: Vec<u16> = prefix.iter().chain(suffix).map(|item| item.put(m)).collect();
    let list = m.add_words(&numbers);
    (SLICE, [list, prefix.len() as u16, suffix.len() as u16, rest])
}
