//! Which images are compared, sort by sort.

use std::fs;
use std::path::Path;

use crate::generate::{aimed, any, damage, fitting, limits, small};
use crate::records::{self, Record};
use crate::rng::Rng;

/// Images or calls of one sort, one after the other.
pub struct Source<T = Vec<u8>> {
    pub name: String,
    pub given: Box<dyn Iterator<Item = T>>,
}

pub fn source<T>(name: &str, given: impl Iterator<Item = T> + 'static) -> Source<T> {
    Source { name: name.to_owned(), given: Box::new(given) }
}

/// Every sort, so many of each that are made by chance. Of the patterns of three and four nodes all
/// are taken if `all` says so, and otherwise each so many-th.
pub fn sources(count: usize, seed: u64, all: bool) -> Vec<Source> {
    let step = |few: usize| if all { 1 } else { few };
    let by_chance = |(name, make): (&str, Make), salt: u64| {
        let mut rng = Rng::new(seed.wrapping_add(salt << 32));
        source(name, (0..count).map(move |_| make(&mut rng)))
    };
    let mut sources = vec![
        source("patterns of one node", small::images(1)),
        source("patterns of two nodes", small::images(2)),
        source("patterns of three nodes", small::images(3).step_by(step(7))),
        source("patterns of four nodes", small::images(4).step_by(step(997))),
        source("limits", limits::images().into_iter().map(|(_, image)| image)),
    ];
    sources.extend(BY_CHANCE.into_iter().zip(1..).map(|(made, salt)| by_chance(made, salt)));
    sources
}

type Make = fn(&mut Rng) -> Vec<u8>;

/// The sorts that are made by chance.
const BY_CHANCE: [(&str, Make); 6] = [
    ("fitting", |rng| fitting::image(rng, 0).encode()),
    ("fitting but for slips", |rng| fitting::image(rng, 4).encode()),
    ("any that keep the rules", |rng| any::image(rng).encode()),
    ("aimed at a refusal", |rng| {
        let number = rng.between(3, 13) as u16;
        aimed::image(rng, number).encode()
    }),
    ("one word changed", |rng| {
        let image = fitting::image(rng, 0);
        damage::nudged(rng, &image).encode()
    }),
    ("damaged", |rng| {
        let image = if rng.percent(50) { any::image(rng) } else { fitting::image(rng, 0) };
        damage::damaged(rng, &image.encode())
    }),
];

/// The images of a stored list that are read or listed.
pub fn stored(path: &Path) -> Source {
    let bytes = fs::read(path).unwrap_or_else(|error| panic!("{}: {error}", path.display()));
    let alone = |record: &Record| [records::IMAGE, records::LISTING].contains(&record.sort);
    let images = records::read(&bytes).into_iter().filter(alone).map(|record| record.image);
    source("stored", images)
}
