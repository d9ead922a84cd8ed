//! Calls by chance.

use image::kinds::*;
use image::{ABSENT, Tables};

use crate::generate::fitting::Maker;
use crate::generate::types::types;
use crate::generate::{aimed as aimed_image, any as any_image, damage};
use crate::parameters::Call;
use crate::rng::Rng;
use crate::tree::{Kind, Node};

/// What a call is made of, while the tables grow.
#[derive(Default)]
pub struct Made {
    pub m: Tables,
    pub own: Option<(u16, u16)>,
    pub list: Vec<(u16, u16)>,
}

impl Made {
    pub fn call(self) -> Call {
        let words = self.list.iter().flat_map(|&(p, type_)| [p, type_]).collect();
        Call { image: self.m.encode(), scopes: 1, own: self.own, words }
    }
}

/// A Bind of a binding.
fn bind(binding: u16, type_: u16, sub: Option<Node>, mode: u16, annotation: u16) -> Node {
    Node { type_, derefs: 0, kind: Kind::Bind { binding, sub: sub.map(Box::new), mode, annotation } }
}

/// A parameter's pattern for a type: `x`, `mut x`, `ref x`, `x @ ..`, a Bind with any words, or any
/// pattern that fits.
fn parameter(maker: &mut Maker<'_>, type_: u16) -> Node {
    let depth = maker.rng.between(0, 4);
    let chosen = maker.rng.below(12);
    if chosen > 5 {
        return maker.pattern(type_, depth);
    }
    let picked = u16::from(maker.rng.percent(90));
    let binding = maker.m.add_binding(type_, picked);
    match chosen {
        0 | 1 => bind(binding, type_, None, BY_VALUE, maker.rng.below(2) as u16),
        2 => bind(binding, type_, None, maker.rng.pick(&[BY_REF, BY_MUT]), 2),
        3 | 4 => {
            let sub = maker.pattern(type_, depth);
            bind(binding, type_, Some(sub), maker.rng.below(3) as u16, maker.rng.below(3) as u16)
        }
        _ => bind(binding, type_, None, maker.rng.below(3) as u16, maker.rng.below(3) as u16),
    }
}

/// So many parameters that fit, or that fit but for slips, and self at times.
fn some(rng: &mut Rng, count: usize, slips: usize) -> Made {
    let total = rng.between(1, 8);
    let mut made = Made { m: types(rng, total), ..Made::default() };
    if rng.percent(40) {
        let type_ = rng.row(made.m.types.len());
        made.own = Some((made.m.add_binding(type_, rng.below(2) as u16), type_));
    }
    for _ in 0..count {
        let type_ = rng.row(made.m.types.len());
        let node = parameter(&mut Maker { m: &mut made.m, rng, slips }, type_);
        let p = node.put(&mut made.m);
        let type_ = if rng.percent(slips) { rng.row(made.m.types.len()) } else { type_ };
        made.list.push((p, type_));
    }
    if rng.percent(80) {
        made.m.bindings.iter_mut().for_each(|row| row[1] = 1);
    }
    if made.m.patterns.is_empty() {
        Node::wild(0).put(&mut made.m);
    }
    made
}

fn few(rng: &mut Rng) -> usize {
    rng.pick(&[0, 1, 1, 2, 2, 3, 4, 6])
}

pub fn fitting(rng: &mut Rng, slips: usize) -> Call {
    let count = few(rng);
    some(rng, count, slips).call()
}

/// Binds whose binding is that of another Bind or of self, which mostly is there.
pub fn bound_again(rng: &mut Rng) -> Call {
    let count = rng.between(1, 5);
    let mut made = some(rng, count, 0);
    if made.own.is_none() && rng.percent(60) {
        let type_ = rng.row(made.m.types.len());
        made.own = Some((made.m.add_binding(type_, 1), type_));
    }
    let binds: Vec<usize> = (0..made.m.patterns.len()).filter(|&p| made.m.patterns[p][0] == BIND).collect();
    if made.m.bindings.is_empty() {
        return made.call();
    }
    for _ in 0..rng.between(1, 3) {
        let binding = match made.own {
            Some((binding, _)) if rng.percent(50) => binding,
            _ => rng.row(made.m.bindings.len()),
        };
        if !binds.is_empty() && rng.percent(60) {
            made.m.patterns[rng.pick(&binds)][3] = binding;
        } else {
            let type_ = made.m.bindings[usize::from(binding)][0];
            let annotation = rng.pick(&[0, 0, 1, 2]);
            let sub = rng.percent(20).then(|| Node::wild(type_));
            let node = bind(binding, type_, sub, rng.pick(&[BY_VALUE, BY_REF]), annotation);
            let p = node.put(&mut made.m);
            made.list.insert(rng.between(0, made.list.len()), (p, type_));
        }
    }
    made.call()
}

/// Any tables that keep the rules; a parameter may be a part of another one.
pub fn any(rng: &mut Rng) -> Call {
    let mut made = Made { m: any_image::image(rng), ..Made::default() };
    let (types, patterns) = (made.m.types.len(), made.m.patterns.len());
    for _ in 0..few(rng) {
        let p = rng.row(patterns);
        let own = made.m.root_type(p.into()).filter(|_| rng.percent(70));
        made.list.push((p, own.map_or_else(|| rng.row(types), |type_| type_ as u16)));
    }
    if rng.percent(40) {
        made.own = Some((rng.row(made.m.bindings.len()), rng.row(types)));
    }
    made.call()
}

/// The root of an image aimed at a refusal, at times between others of its patterns.
pub fn aimed(rng: &mut Rng) -> Call {
    let number = rng.between(3, 13) as u16;
    let m = aimed_image::image(rng, number);
    let patterns = m.patterns.len();
    let mut made = Made { m, ..Made::default() };
    let roots = [vec![patterns - 1], (0..rng.below(3)).map(|_| rng.below(patterns)).collect()].concat();
    for p in roots {
        let type_ = made.m.root_type(p).unwrap_or(usize::from(made.m.patterns[p][1])) as u16;
        made.list.insert(rng.between(0, made.list.len()), (p as u16, type_));
    }
    if number == 9 || rng.percent(20) {
        made.m.bindings.iter_mut().for_each(|row| row[1] = rng.below(2) as u16);
    }
    made.call()
}

/// Lists of 0, 63 to 66 parameters, odd ones, and ones that name what is not there; self as well.
pub fn lists(rng: &mut Rng) -> Call {
    let count = rng.pick(&[0, 1, 1, 2, 3, 63, 64, 64, 65, 66]);
    let drawn = rng.between(1, 3);
    let mut made = some(rng, drawn, 0);
    let repeated = (0..count).map(|_| rng.pick(&made.list)).collect();
    made.list = repeated;
    let (types, patterns) = (made.m.types.len() as u16, made.m.patterns.len() as u16);
    let bindings = made.m.bindings.len() as u16;
    if let (Some(own), true) = (&mut made.own, rng.percent(40)) {
        match rng.below(2) {
            0 => own.0 = rng.pick(&[bindings, bindings + 1, ABSENT]),
            _ => own.1 = rng.pick(&[types, types + 1, ABSENT]),
        }
    }
    let mut call = made.call();
    match rng.below(6) {
        0 => call.words.push(rng.pick(&[0, patterns, ABSENT])),
        1 => drop(call.words.pop()),
        2 | 3 if !call.words.is_empty() => {
            let at = rng.below(call.words.len());
            let end = if at % 2 == 0 { patterns } else { types };
            call.words[at] = rng.pick(&[end - 1, end, end + 1, ABSENT]);
        }
        _ => {}
    }
    call
}

/// A few patterns, many times: bodies of many blocks and locals.
pub fn repeated(rng: &mut Rng) -> Call {
    let count = rng.between(1, 4);
    let mut made = some(rng, count, 0);
    let length = rng.between(5, 64);
    let repeated = (0..length).map(|_| rng.pick(&made.list)).collect();
    made.list = repeated;
    made.call()
}

/// No scope is open; or bytes of the image are damaged, or one word is changed.
pub fn without(rng: &mut Rng) -> Call {
    let count = few(rng);
    let mut call = some(rng, count, 0).call();
    match rng.below(4) {
        0 | 1 => call.scopes = 0,
        2 => call.image = damage::damaged(rng, &call.image),
        _ => {
            let m = image::tables_of(&call.image).expect("encoded");
            call.image = damage::nudged(rng, &m).encode();
        }
    }
    call
}
