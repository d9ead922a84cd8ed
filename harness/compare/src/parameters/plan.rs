//! Which calls are compared, sort by sort.

use crate::parameters::{Call, generate, limits};
use crate::plan::{Source, source};
use crate::records::{self, Record};
use crate::rng::Rng;

type Make = fn(&mut Rng) -> Call;

const SORTS: [(&str, Make); 9] = [
    ("parameters that fit", |rng| generate::fitting(rng, 0)),
    ("parameters that fit but for slips", |rng| generate::fitting(rng, 4)),
    ("one binding more than once", generate::bound_again),
    ("any patterns, with any types", generate::any),
    ("aimed at a refusal", generate::aimed),
    ("lists that break a rule, and long lists", generate::lists),
    ("one pattern many times", generate::repeated),
    ("near a limit", limits::near),
    ("no scope, a damaged image", generate::without),
];

/// Every sort, so many calls of each.
pub fn sources(count: usize, seed: u64) -> Vec<Source<Call>> {
    let by_chance = |((name, make), salt): ((&str, Make), u64)| {
        let mut rng = Rng::new(seed.wrapping_add(salt << 32));
        source(name, (0..count).map(move |_| make(&mut rng)))
    };
    SORTS.into_iter().zip(101..).map(by_chance).collect()
}

/// The calls of a list in bytes, but those with fewer than four words: document 01 alone judges these.
pub fn read_list(list: &[u8]) -> Vec<Call> {
    let whole = |record: &Record| record.sort == records::PARAMETERS && record.words.len() >= 4;
    let calls = records::read(list).into_iter().filter(whole);
    let call = |Record { image, words, .. }: Record| {
        let own = (words[1] == 1).then_some((words[2], words[3]));
        Call { image, scopes: words[0], own, words: words[4..].to_vec() }
    };
    calls.map(call).collect()
}
