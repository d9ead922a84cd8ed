//! The smallest image found on which the two sides still differ.

use std::time::{Duration, Instant};

use image::Tables;
use image::kinds::WILD;

use crate::judge;
use crate::other::Other;
use crate::read_tree;
use crate::tree::{Kind, Node};

/// So many smaller images are asked for at once.
const AT_ONCE: usize = 64;

/// Of longer lists of items the first ones are taken away one by one.
const FEW: usize = 40;
/// No new step is begun after so many seconds.
const SECONDS: u64 = 20;

/// Makes an image smaller while the difference stays. One that breaks a rule is left as it is.
pub fn smallest(image: &[u8], other: &Other) -> Vec<u8> {
    let end = Instant::now() + Duration::from_secs(SECONDS);
    let mut found = image.to_vec();
    while let Some(smaller) = step(&found, other, end) {
        found = smaller;
    }
    found
}

fn step(image: &[u8], other: &Other, end: Instant) -> Option<Vec<u8>> {
    let m = image::read(image)?;
    let mut candidates: Vec<Vec<u8>> = candidates(&m).iter().map(Tables::encode).collect();
    candidates.retain(|smaller| smaller.len() < image.len() || smaller.as_slice() < image);
    candidates.retain(|smaller| smaller.len() <= image.len());
    candidates.sort_by_key(Vec::len);
    candidates.chunks(AT_ONCE).take_while(|_| Instant::now() < end).find_map(|chunk| {
        let answers = other.answers(chunk);
        let differing = chunk
            .iter()
            .zip(answers)
            .find(|(smaller, answer)| !judge::expected(smaller, other.how).agrees(answer));
        differing.map(|(smaller, _)| smaller.clone())
    })
}

fn candidates(m: &Tables) -> Vec<Tables> {
    let root = read_tree::tree(m, m.patterns.len() as u16 - 1);
    let (needed, renumbered) = read_tree::without_unneeded(m, &root);
    let mut found = vec![read_tree::image(&needed, &renumbered), read_tree::image(m, &root)];
    for node in simpler(&root) {
        let with_node = read_tree::image(m, &node);
        let (needed, node) = read_tree::without_unneeded(&with_node, &node);
        found.push(read_tree::image(&needed, &node));
        found.push(with_node);
    }
    for (number, row) in m.types.iter().enumerate() {
        for (word, value) in [(2, 0), (2, row[2].saturating_sub(1)), (4, 1)] {
            let mut copy = m.clone();
            copy.types[number][word] = value;
            found.push(copy);
        }
    }
    for (number, row) in m.variants.iter().enumerate() {
        let mut copy = m.clone();
        copy.variants[number][1] = row[1].saturating_sub(1);
        found.push(copy);
    }
    found.retain(image::keeps_all_rules);
    found
}

/// The trees with one part less.
fn simpler(node: &Node) -> Vec<Node> {
    let mut found: Vec<Node> = node.children().into_iter().cloned().collect();
    if node.kind != Kind::Bare(WILD) {
        found.push(Node { kind: Kind::Bare(WILD), ..node.clone() });
    }
    if node.derefs > 0 {
        found.push(Node { derefs: node.derefs - 1, ..node.clone() });
    }
    found.extend(with_fewer_items(node));
    for number in 0..node.children().len().min(FEW) {
        for child in simpler(node.children()[number]) {
            let mut copy = node.clone();
            *copy.children_mut().remove(number) = child;
            found.push(copy);
        }
    }
    found
}

/// The pattern with one of its items gone, or its ellipsis, rest, subpattern or a range's end.
fn with_fewer_items(node: &Node) -> Vec<Node> {
    let with = |kind: Kind| Node { kind, ..node.clone() };
    match &node.kind {
        Kind::Tuple { args, ellipsis } => without_each(args)
            .into_iter()
            .map(|args| with(Kind::Tuple { args, ellipsis: *ellipsis }))
            .chain([with(Kind::Tuple { args: args.clone(), ellipsis: None })])
            .collect(),
        Kind::TupleStruct { args, ellipsis, variant } => without_each(args)
            .into_iter()
            .map(|args| with(Kind::TupleStruct { args, ellipsis: *ellipsis, variant: *variant }))
            .chain([with(Kind::TupleStruct { args: args.clone(), ellipsis: None, variant: *variant })])
            .collect(),
        Kind::Or(items) => without_each(items).into_iter().map(|items| with(Kind::Or(items))).collect(),
        Kind::Record { fields, variant } => without_each(fields)
            .into_iter()
            .map(|fields| with(Kind::Record { fields, variant: *variant }))
            .collect(),
        Kind::Slice { prefix, rest, suffix } => {
            shorter_slices(prefix, rest, suffix).into_iter().map(with).collect()
        }
        Kind::Bind { binding, mode, annotation, .. } => {
            let (binding, mode, annotation) = (*binding, *mode, *annotation);
            vec![with(Kind::Bind { binding, sub: None, mode, annotation })]
        }
        Kind::Range { start, end, half_open } => vec![
            with(Kind::Range { start: None, end: end.clone(), half_open: *half_open }),
            with(Kind::Range { start: start.clone(), end: None, half_open: *half_open }),
        ],
        _ => Vec::new(),
    }
}

fn shorter_slices(prefix: &[Node], rest: &Option<Box<Node>>, suffix: &[Node]) -> Vec<Kind> {
    let slice =
        |prefix: Vec<Node>, rest: Option<Box<Node>>, suffix: Vec<Node>| Kind::Slice { prefix, rest, suffix };
    let fewer = without_each(prefix).into_iter();
    let mut found: Vec<Kind> = fewer.map(|prefix| slice(prefix, rest.clone(), suffix.to_vec())).collect();
    let fewer = without_each(suffix).into_iter();
    found.extend(fewer.map(|suffix| slice(prefix.to_vec(), rest.clone(), suffix)));
    found.push(slice(prefix.to_vec(), None, suffix.to_vec()));
    found
}

/// The items without either half, and, where they are few, without each.
fn without_each<T: Clone>(items: &[T]) -> Vec<Vec<T>> {
    let without = |number: usize| {
        let mut fewer = items.to_vec();
        fewer.remove(number);
        fewer
    };
    let (first, second) = items.split_at(items.len() / 2);
    let mut found = vec![first.to_vec(), second.to_vec()];
    found.extend((0..items.len().min(FEW)).map(without));
    found
}
