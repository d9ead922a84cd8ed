//! Questions whether a pattern fits, over the patterns that are made by chance. The Rust has no such
//! test: two other sides are held against each other.

use image::{ABSENT, Tables};

use crate::generate::{any, damage, fitting};
use crate::records;
use crate::rng::Rng;

type Make = fn(&mut Rng) -> Tables;

const SORTS: [Make; 4] = [
    |rng| fitting::image(rng, 0),
    |rng| fitting::image(rng, 4),
    |rng| {
        let image = fitting::image(rng, 0);
        damage::nudged(rng, &image)
    },
    any::image,
];

/// The records of so many questions of each sort.
pub fn questions(count: usize, seed: u64) -> Vec<u8> {
    let mut rng = Rng::new(seed);
    let mut list = Vec::new();
    for make in SORTS {
        for _ in 0..count {
            let m = make(&mut rng);
            let words = words(&mut rng, &m);
            list.extend(records::entry_with(records::FIT, &m.encode(), &words));
        }
    }
    list
}

/// The last pattern, the type of its place, the root, and the bindings' locals; most times all differ
/// and are there.
fn words(rng: &mut Rng, m: &Tables) -> Vec<u16> {
    let Some(pattern) = m.patterns.len().checked_sub(1) else { return Vec::new() };
    let bound = m.bindings.len() as u16;
    let own = m.patterns[pattern][1];
    let type_ = m.root_type(pattern).map_or(own, |type_| type_ as u16);
    let mut words = vec![pattern as u16, type_];
    words.extend(0..=bound);
    let at = 2 + usize::from(rng.row(1 + usize::from(bound)));
    match rng.below(8) {
        0 => words[at] = 0,
        1 => words[at] = 1,
        2 if at > 2 => words[at] = ABSENT,
        _ => {}
    }
    words
}
