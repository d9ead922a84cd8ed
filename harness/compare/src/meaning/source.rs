//! Types, values and patterns as Rust source of the 2021 edition.

use std::fmt::Write;

use image::Tables;
use image::kinds::*;

use crate::meaning::value::{Value, number, scalar};
use crate::tree::{Kind, Node, Operand};

pub struct Source<'a> {
    pub m: &'a Tables,
    /// Constants that patterns name, declared before the function.
    pub constants: String,
}

/// The names of a type's parts have the number of the image's tables in them.
impl Source<'_> {
    fn row(&self, type_: u16) -> [u16; 5] {
        self.m.types[usize::from(type_)]
    }

    pub fn type_name(&self, type_: u16) -> String {
        let [kind, a, b, _, _] = self.row(type_);
        match kind {
            INTEGER => format!("{}{}", if b == 1 { 'i' } else { 'u' }, 8 * a),
            BOOL => "bool".to_owned(),
            CHAR => "char".to_owned(),
            STR => "str".to_owned(),
            TUPLE_TYPE => {
                let fields = self.m.words(a, b.into()).iter();
                format!("({})", fields.map(|&field| self.type_name(field) + ",").collect::<String>())
            }
            REFERENCE => format!("&'static {}", self.type_name(a)),
            ARRAY => format!("[{}; {b}]", self.type_name(a)),
            SLICE_TYPE => format!("[{}]", self.type_name(a)),
            _ => format!("T{type_}"),
        }
    }

    /// The declarations of the image's structs and enums; a union, which has no value, is declared
    /// as a struct.
    pub fn declarations(&self) -> String {
        let mut text = String::new();
        for (number, &[kind, first, count, c, _]) in self.m.types.iter().enumerate() {
            if kind != ADT {
                continue;
            }
            text += "#[derive(Clone, Copy, Debug)]\n";
            if c != ENUM {
                writeln!(text, "struct T{number}({});", self.field_types(first)).expect("a string");
                continue;
            }
            let variants =
                (first..first + count).map(|variant| format!("V{variant}({}), ", self.field_types(variant)));
            writeln!(text, "enum T{number} {{ {} }}", variants.collect::<String>()).expect("a string");
        }
        text
    }

    fn field_types(&self, variant: u16) -> String {
        let [first, count, _] = self.m.variants[usize::from(variant)];
        let fields = self.m.words(first, count.into()).iter();
        fields.map(|&field| self.type_name(field) + ", ").collect()
    }

    /// A variant's path: the struct, or the enum and the variant.
    fn variant_name(&self, variant: u16) -> String {
        let has = |row: &[u16; 5]| row[0] == ADT && (row[1]..row[1] + row[2]).contains(&variant);
        let type_ = self.m.types.iter().position(has).expect("a type has the variant");
        match self.m.types[type_][3] {
            ENUM => format!("T{type_}::V{variant}"),
            _ => format!("T{type_}"),
        }
    }

    pub fn value(&self, value: &Value) -> String {
        let all = |items: &[Value]| -> String { items.iter().map(|item| self.value(item) + ", ").collect() };
        match value {
            Value::Variant(variant, fields) => format!("{}({})", self.variant_name(*variant), all(fields)),
            Value::Row(items) => all(items),
            Value::Integer(bytes, signed) => number(bytes, *signed).to_string(),
            Value::Bool(is) => is.to_string(),
            Value::Char(is) => format!("{is:?}"),
            Value::Str(text) => format!("{text:?}"),
            Value::Ref(target) => format!("&{}", self.value(target)),
        }
    }

    /// A value of a type; tuples, arrays and slices are rows, which only their type tells apart.
    pub fn typed_value(&self, value: &Value, type_: u16) -> String {
        let [kind, a, b, _, _] = self.row(type_);
        match (kind, value) {
            (TUPLE_TYPE, Value::Row(items)) => {
                format!("({})", self.typed_values(items, self.m.words(a, b.into())))
            }
            (ARRAY | SLICE_TYPE, Value::Row(items)) => {
                format!("[{}]", self.typed_values(items, &vec![a; items.len()]))
            }
            (ADT, Value::Variant(variant, items)) => {
                let [first, count, _] = self.m.variants[usize::from(*variant)];
                let types = self.m.words(first, count.into());
                format!("{}({})", self.variant_name(*variant), self.typed_values(items, types))
            }
            (INTEGER, _) => self.value(value) + &self.type_name(type_),
            (REFERENCE, Value::Ref(target)) if matches!(**target, Value::Str(_)) => self.value(target),
            (REFERENCE, Value::Ref(target)) if self.row(a)[0] == SLICE_TYPE => {
                format!("(&{} as {})", self.typed_value(target, a), self.type_name(type_))
            }
            (REFERENCE, Value::Ref(target)) => format!("&{}", self.typed_value(target, a)),
            _ => self.value(value),
        }
    }

    fn typed_values(&self, items: &[Value], types: &[u16]) -> String {
        items.iter().zip(types).map(|(item, &type_)| self.typed_value(item, type_) + ", ").collect()
    }

    /// A pattern. `by_ref`: the default binding mode is `ref`.
    pub fn pattern(&mut self, node: &Node, by_ref: bool) -> String {
        let by_ref = by_ref || node.derefs > 0;
        match &node.kind {
            Kind::Tuple { args, ellipsis } => format!("({})", self.arguments(args, *ellipsis, by_ref)),
            Kind::TupleStruct { args, ellipsis, variant } => {
                let name = self.variant_name(*variant);
                format!("{name}({})", self.arguments(args, *ellipsis, by_ref))
            }
            Kind::Record { fields, variant } => {
                let name = self.variant_name(*variant);
                let fields = fields.iter();
                let text: String = fields
                    .map(|(field, item)| format!("{field}: {}, ", self.pattern(item, by_ref)))
                    .collect();
                format!("{name} {{ {text}.. }}")
            }
            Kind::Path(_, variant) => format!("{} {{ .. }}", self.variant_name(*variant)),
            Kind::Or(items) => {
                let items: Vec<String> = items.iter().map(|item| self.pattern(item, by_ref)).collect();
                format!("({})", items.join(" | "))
            }
            Kind::Bind { binding, sub, mode, .. } => {
                let sub =
                    sub.as_ref().map_or(String::new(), |sub| format!(" @ {}", self.pattern(sub, by_ref)));
                format!("{}b{binding}{sub}", if *mode == BY_REF && !by_ref { "ref " } else { "" })
            }
            Kind::Ref(inner) => format!("&{}", self.pattern(inner, false)),
            Kind::Slice { prefix, rest, suffix } => self.slice(prefix, rest.as_deref(), suffix, by_ref),
            Kind::Lit(operand) | Kind::Constant(operand) => self.operand(operand, node.type_),
            Kind::Range { start, end, half_open } => self.range(node.type_, start, end, *half_open),
            Kind::Bare(REST) => "..".to_owned(),
            Kind::Bare(_) => "_".to_owned(),
        }
    }

    fn arguments(&mut self, args: &[Node], ellipsis: Option<u16>, by_ref: bool) -> String {
        let mut items: Vec<String> = args.iter().map(|item| self.pattern(item, by_ref) + ", ").collect();
        if let Some(place) = ellipsis {
            items.insert(place.into(), "..,".to_owned());
        }
        let text = items.concat();
        if ellipsis.is_some() { text.trim_end_matches([',', ' ']).to_owned() } else { text }
    }

    fn slice(&mut self, prefix: &[Node], rest: Option<&Node>, suffix: &[Node], by_ref: bool) -> String {
        let mut items: Vec<String> = prefix.iter().map(|item| self.pattern(item, by_ref)).collect();
        match rest {
            Some(Node { kind: Kind::Bind { binding, mode, .. }, .. }) => {
                let by = if *mode == BY_REF && !by_ref { "ref " } else { "" };
                items.push(format!("{by}b{binding} @ .."));
            }
            Some(_) => items.push("..".to_owned()),
            None => {}
        }
        items.extend(suffix.iter().map(|item| self.pattern(item, by_ref)));
        format!("[{}]", items.join(", "))
    }

    fn range(
        &mut self,
        type_: u16,
        start: &Option<Operand>,
        end: &Option<Operand>,
        half_open: bool,
    ) -> String {
        let mut text =
            |end: &Option<Operand>| end.as_ref().map_or(String::new(), |end| self.operand(end, type_));
        let (first, last) = (text(start), text(end));
        format!("({first}..{}{last})", if half_open || last.is_empty() { "" } else { "=" })
    }

    fn operand(&mut self, operand: &Operand, type_: u16) -> String {
        let [kind, size, signed, _, _] = self.row(type_);
        let text = match kind {
            BOOL => (operand.bytes[0] == 1).to_string(),
            CHAR => format!("{:?}", scalar(&operand.bytes)),
            INTEGER => number(&operand.bytes[..usize::from(size)], signed == 1).to_string(),
            _ => format!("{:?}", String::from_utf8_lossy(&operand.bytes)),
        };
        if operand.kind != CONSTANT {
            return text;
        }
        let name = format!("C{}", self.constants.lines().count());
        let type_ = self.type_name(type_);
        writeln!(self.constants, "const {name}: {type_} = {text};").expect("a string");
        name
    }
}

/// What Rust's `{:?}` prints of a value of a type.
pub fn debug(source: &Source<'_>, value: &Value, type_: u16) -> String {
    let [kind, a, b, _, _] = source.m.types[usize::from(type_)];
    let all = |items: &[Value], types: &[u16]| -> Vec<String> {
        items.iter().zip(types).map(|(item, &type_)| debug(source, item, type_)).collect()
    };
    match (kind, value) {
        (TUPLE_TYPE, Value::Row(items)) => {
            let comma = if items.len() == 1 { "," } else { "" };
            format!("({}{comma})", all(items, source.m.words(a, b.into())).join(", "))
        }
        (_, Value::Row(items)) => format!("[{}]", all(items, &vec![a; items.len()]).join(", ")),
        (_, Value::Variant(variant, items)) => {
            let [first, count, _] = source.m.variants[usize::from(*variant)];
            let name = source.variant_name(*variant);
            let name = name.rsplit("::").next().expect("a name");
            let fields = all(items, source.m.words(first, count.into()));
            if fields.is_empty() { name.to_owned() } else { format!("{name}({})", fields.join(", ")) }
        }
        (REFERENCE, Value::Ref(target)) => debug(source, target, a),
        // A binding by reference: the type is the one behind it.
        (_, Value::Ref(target)) => debug(source, target, type_),
        _ => source.value(value),
    }
}
