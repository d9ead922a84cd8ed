//! Compares all images or calls of a plan with the other side, and tells what was found.

use std::collections::{BTreeMap, HashSet};
use std::hash::Hash;
use std::time::Instant;

use crate::judge::{self, Expected};
use crate::other::Other;
use crate::plan::Source;
use crate::records;
use crate::shrink;

/// What both sides are given: an image, or a call.
pub trait Given: Clone + Eq + Hash {
    /// What it is, of several.
    const NAME: &'static str;

    /// As the other side reads it.
    fn entry(&self) -> Vec<u8>;

    /// What it must be answered with.
    fn expected(&self, other: &Other) -> Expected;

    /// The smallest one found on which the two sides still differ.
    fn smallest(&self, other: &Other) -> Self;

    /// What is printed of it.
    fn told(&self) -> String;
}

impl Given for Vec<u8> {
    const NAME: &'static str = "images";

    fn entry(&self) -> Vec<u8> {
        records::entry(records::LISTING, self)
    }

    fn expected(&self, other: &Other) -> Expected {
        judge::expected(self, other.how)
    }

    fn smallest(&self, other: &Other) -> Self {
        shrink::smallest(self, other)
    }

    fn told(&self) -> String {
        let hexadecimal: String = self.iter().map(|byte| format!("{byte:02x}")).collect();
        let tables = image::tables_of(self).map_or(String::new(), |tables| format!("{tables:?}\n"));
        format!("image: {hexadecimal}\n{tables}")
    }
}

/// A chunk has at most so many images or calls, and at most so many bytes but for one.
const CHUNK_IMAGES: usize = 400;
const CHUNK_BYTES: usize = 1 << 20;
/// So many differences are printed, each made small and different from the others, and so many are
/// made small for that; all are counted.
const PRINTED: usize = 8;
const SHRUNK: usize = 24;

struct Tally<T> {
    sorts: BTreeMap<String, usize>,
    given: usize,
    /// Agreed listings that are others without document 02's replacements, without a local for each
    /// discriminant test, and without entries struck out.
    replaced: usize,
    parted: usize,
    struck: usize,
    differences: usize,
    /// The smallest ones that were printed.
    printed: HashSet<T>,
    /// How many differences were made small.
    shrunk: usize,
}

/// Compares, prints, and answers how many differed. With `counts` differences are counted
/// and not printed.
pub fn compare<T: Given>(sources: Vec<Source<T>>, other: &Other, counts: bool) -> usize {
    let shrunk = if counts { SHRUNK } else { 0 };
    let (sorts, printed) = (BTreeMap::new(), HashSet::new());
    let (replaced, parted, struck) = (0, 0, 0);
    let mut tally = Tally::<T> { sorts, given: 0, replaced, parted, struck, differences: 0, printed, shrunk };
    for source in sources {
        let (started, before) = (Instant::now(), tally.given);
        let differed = tally.differences;
        let name = source.name.clone();
        one_source(source, other, &mut tally);
        println!(
            "{name}: {} {}, {} differ, {:.1} s",
            tally.given - before,
            T::NAME,
            tally.differences - differed,
            started.elapsed().as_secs_f64()
        );
    }
    println!("answers:");
    for (sort, count) in &tally.sorts {
        println!("  {sort}: {count}");
    }
    println!(
        "{} {} compared, {} differ; {} agree only by document 02's replacements, {} only with a local for \
         each discriminant test, {} only with entries struck out",
        tally.given,
        T::NAME,
        tally.differences,
        tally.replaced,
        tally.parted,
        tally.struck
    );
    tally.differences
}

fn one_source<T: Given>(source: Source<T>, other: &Other, tally: &mut Tally<T>) {
    let mut given = source.given.peekable();
    while given.peek().is_some() {
        let mut chunk: Vec<T> = Vec::new();
        let mut bytes = 0;
        while chunk.len() < CHUNK_IMAGES && bytes < CHUNK_BYTES {
            let Some(next) = given.next() else { break };
            bytes += next.entry().len();
            chunk.push(next);
        }
        one_chunk(&source.name, &chunk, other, tally);
    }
}

fn one_chunk<T: Given>(source: &str, chunk: &[T], other: &Other, tally: &mut Tally<T>) {
    let answers = other.answers(chunk);
    for (given, answer) in chunk.iter().zip(&answers) {
        let expected = given.expected(other);
        tally.given += 1;
        *tally.sorts.entry(expected.sort.clone()).or_default() += 1;
        if expected.agrees(answer) {
            tally.replaced += usize::from(expected.changed.replaced);
            tally.parted += usize::from(expected.changed.parted);
            tally.struck += usize::from(expected.changed.struck);
        } else {
            tally.differences += 1;
            if tally.printed.len() < PRINTED && tally.shrunk < SHRUNK {
                tally.shrunk += 1;
                let small = given.smallest(other);
                if tally.printed.insert(small.clone()) {
                    report(source, given, &small, other);
                }
            }
        }
    }
}

fn report<T: Given>(source: &str, given: &T, small: &T, other: &Other) {
    let expected: Expected = small.expected(other);
    let answer = other.answers(std::slice::from_ref(small)).remove(0);
    println!("difference, found among \"{source}\" (from {} bytes):", given.entry().len());
    print!("{}", small.told());
    println!("the Rust:\n{}the other side:\n{answer}", expected.told());
}
