//! Random patterns that fit their types, or that fit but for slips.

use image::kinds::*;
use image::{ABSENT, Tables};

use crate::generate::types::types;
use crate::rng::Rng;
use crate::tree::{Kind, Node, Operand};

pub struct Maker<'a> {
    pub m: &'a mut Tables,
    pub rng: &'a mut Rng,
    /// Of a hundred patterns so many do not fit; 0 for none.
    pub slips: usize,
}

/// An image of one pattern tree, and the place's type. A depth of 0 is a leaf.
pub fn image(rng: &mut Rng, slips: usize) -> Tables {
    let total = rng.between(2, 10);
    let mut m = types(rng, total);
    let place_type = rng.row(m.types.len());
    let depth = rng.between(1, 5);
    let root = Maker { m: &mut m, rng, slips }.pattern(place_type, depth);
    root.put(&mut m);
    m
}

impl Maker<'_> {
    fn row(&self, type_: u16) -> [u16; 5] {
        self.m.types[usize::from(type_)]
    }

    fn slip(&mut self) -> bool {
        self.rng.percent(self.slips)
    }

    /// A pattern for a place of a type.
    pub fn pattern(&mut self, place_type: u16, depth: usize) -> Node {
        let mut type_ = if self.slip() { self.rng.row(self.m.types.len()) } else { place_type };
        let mut derefs = 0;
        while self.row(type_)[0] == REFERENCE && self.rng.percent(40) {
            type_ = self.row(type_)[1];
            derefs += 1;
        }
        if self.slip() {
            derefs += 1;
        }
        Node { type_, derefs, kind: self.kind(type_, depth) }
    }

    fn kind(&mut self, type_: u16, depth: usize) -> Kind {
        match self.rng.below(20) {
            _ if self.slip() => self.misfit(),
            0 | 1 => Kind::Bare(WILD),
            2..=4 => self.bind(type_, depth),
            5..=7 if depth > 0 => self.or(type_, depth),
            _ => self.shape(type_, depth),
        }
    }

    fn misfit(&mut self) -> Kind {
        let kinds = [MISSING, REST, NOT_NULL, EXPR, BOX, DEREF];
        match self.rng.below(4) {
            0 => Kind::Bare(self.rng.pick(&kinds)),
            1 => Kind::Path(self.rng.pick(&[UNRESOLVED, NAMES_OTHER]), 0),
            2 => Kind::Lit(self.any_operand()),
            _ => Kind::Or(Vec::new()),
        }
    }

    fn any_operand(&mut self) -> Operand {
        let kind = self.rng.between(usize::from(STRING), usize::from(OTHER)) as u16;
        let count = self.rng.between(1, 16);
        Operand { kind, bytes: (0..count).map(|_| self.rng.next() as u8).collect() }
    }

    fn bind(&mut self, type_: u16, depth: usize) -> Kind {
        let picked = u16::from(self.rng.percent(90));
        let binding = if self.slip() && !self.m.bindings.is_empty() {
            self.rng.row(self.m.bindings.len())
        } else {
            self.m.add_binding(type_, picked)
        };
        let sub = (depth > 0 && self.rng.percent(40))
            .then(|| Box::new(Node { type_, derefs: 0, kind: self.kind(type_, depth - 1) }));
        let mode = self.rng.below(3) as u16;
        Kind::Bind { binding, sub, mode, annotation: self.rng.below(3) as u16 }
    }

    /// Alternatives that bind the same: variations of the first.
    fn or(&mut self, type_: u16, depth: usize) -> Kind {
        let first = Node { type_, derefs: 0, kind: self.kind(type_, depth - 1) };
        let mut items = vec![first];
        for _ in 0..self.rng.below(3) {
            let item = self.vary(&items[0], depth - 1);
            items.push(item);
        }
        Kind::Or(items)
    }

    /// A copy in which parts that bind nothing may be new.
    fn vary(&mut self, node: &Node, depth: usize) -> Node {
        let mut copy = node.clone();
        if !node.binds() && self.rng.percent(60) {
            let bindings = self.m.bindings.len();
            copy.kind = self.kind(node.type_, depth);
            if !copy.binds() {
                return copy;
            }
            self.m.bindings.truncate(bindings);
            copy = node.clone();
        }
        for child in copy.children_mut() {
            *child = self.vary(child, depth.saturating_sub(1));
        }
        copy
    }

    fn shape(&mut self, type_: u16, depth: usize) -> Kind {
        let [kind, a, b, _, _] = self.row(type_);
        match kind {
            INTEGER | CHAR | BOOL => self.scalar(type_),
            REFERENCE if self.row(a)[0] == STR => Kind::Lit(self.text()),
            _ if depth == 0 => Kind::Bare(WILD),
            TUPLE_TYPE => {
                let fields = self.m.words(a, b.into()).to_vec();
                let (args, ellipsis) = self.arguments(&fields, depth - 1);
                Kind::Tuple { args, ellipsis }
            }
            ADT if self.row(type_)[3] != UNION || self.slips > 0 => self.variant(a, b, depth - 1),
            REFERENCE => Kind::Ref(Box::new(self.pattern(a, depth - 1))),
            ARRAY => self.slice(type_, Some(b), depth - 1),
            SLICE_TYPE => self.slice(type_, None, depth - 1),
            _ => Kind::Bare(WILD),
        }
    }

    fn text(&mut self) -> Operand {
        let bytes = self.rng.pick(&["", "DNF", "RET", "OCS"]).as_bytes().to_vec();
        Operand { kind: STRING, bytes }
    }

    fn arguments(&mut self, fields: &[u16], depth: usize) -> (Vec<Node>, Option<u16>) {
        let mut count = fields.len();
        let mut ellipsis = None;
        let mut types = fields.to_vec();
        if self.rng.percent(40) {
            count = self.rng.between(0, fields.len());
            let front = self.rng.between(0, count);
            types = fields[..front].to_vec();
            types.extend(&fields[fields.len() - (count - front)..]);
            ellipsis = Some(front as u16);
        }
        if self.slip() {
            let surplus = self.rng.row(self.m.types.len());
            types.insert(self.rng.between(0, count), surplus);
        }
        if self.slip() {
            ellipsis = Some(self.rng.between(0, types.len() + 1) as u16);
        }
        (types.into_iter().map(|type_| self.pattern(type_, depth)).collect(), ellipsis)
    }

    fn variant(&mut self, first: u16, count: u16, depth: usize) -> Kind {
        let mut variant = first + self.rng.row(count.into());
        if self.slip() {
            variant = self.rng.row(self.m.variants.len());
        }
        let [start, fields, _] = self.m.variants[usize::from(variant)];
        let types = self.m.words(start, fields.into()).to_vec();
        if self.slip() {
            variant = ABSENT;
        }
        match self.rng.below(4) {
            0 => Kind::Path(NAMES_VARIANT, if variant == ABSENT { first } else { variant }),
            1 => self.record(&types, variant, depth),
            _ => {
                let (args, ellipsis) = self.arguments(&types, depth);
                Kind::TupleStruct { args, ellipsis, variant }
            }
        }
    }

    fn record(&mut self, types: &[u16], variant: u16, depth: usize) -> Kind {
        let mut fields = Vec::new();
        for (number, &type_) in types.iter().enumerate() {
            if self.rng.percent(70) {
                let field = if self.slip() { self.rng.pick(&[0, 3, ABSENT]) } else { number as u16 };
                let item = self.pattern(type_, depth);
                fields.insert(self.rng.between(0, fields.len()), (field, item));
            }
        }
        Kind::Record { fields, variant }
    }

    fn slice(&mut self, type_: u16, length: Option<u16>, depth: usize) -> Kind {
        let element = self.row(type_)[1];
        let mut rest = None;
        let mut count = length.map_or_else(|| self.rng.below(4), usize::from);
        if self.rng.percent(50) {
            rest = Some(Box::new(self.rest(type_)));
            count = length.map_or(count, |length| self.rng.between(0, length.into()));
        }
        if self.slip() {
            count = self.rng.below(5);
        }
        let mut prefix: Vec<Node> = (0..count).map(|_| self.pattern(element, depth)).collect();
        let suffix = prefix.split_off(self.rng.between(0, count));
        Kind::Slice { prefix, rest, suffix }
    }

    /// A rest: Rest, Wild, or a Bind over Rest; a slip leaves out what the Bind is over.
    fn rest(&mut self, type_: u16) -> Node {
        let rest = Node { type_, derefs: 0, kind: Kind::Bare(self.rng.pick(&[REST, REST, WILD])) };
        if self.rng.percent(50) {
            return rest;
        }
        let binding = self.m.add_binding(type_, 1);
        let sub = (!self.slip()).then(|| Box::new(Node { kind: Kind::Bare(REST), ..rest }));
        let mode = self.rng.below(3) as u16;
        Node { type_, derefs: 0, kind: Kind::Bind { binding, sub, mode, annotation: 0 } }
    }
}
