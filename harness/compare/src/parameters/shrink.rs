//! The smallest call found on which the two sides still differ.

use std::time::{Duration, Instant};

use image::Tables;
use image::kinds::WILD;

use crate::other::Other;
use crate::parameters::Call;
use crate::run::Given;

/// So many smaller calls are asked for at once.
const AT_ONCE: usize = 64;
/// No new step is begun after so many seconds.
const SECONDS: u64 = 20;

/// Makes a call smaller while the difference stays.
pub fn smallest(call: &Call, other: &Other) -> Call {
    let end = Instant::now() + Duration::from_secs(SECONDS);
    let mut found = call.clone();
    while let Some(smaller) = step(&found, other, end) {
        found = smaller;
    }
    found
}

fn step(call: &Call, other: &Other, end: Instant) -> Option<Call> {
    let mut candidates = with_shorter_list(call);
    if let Some(m) = image::read(&call.image) {
        candidates.extend(with_smaller_tables(call, &m));
    }
    candidates.chunks(AT_ONCE).take_while(|_| Instant::now() < end).find_map(|chunk| {
        let answers = other.answers(chunk);
        let mut pairs = chunk.iter().zip(answers);
        let differing = pairs.find(|(smaller, answer)| !smaller.expected(other).agrees(answer));
        differing.map(|(smaller, _)| smaller.clone())
    })
}

/// The call without self, without either half of the list, and without each parameter.
fn with_shorter_list(call: &Call) -> Vec<Call> {
    let with = |words: Vec<u16>| Call { words, ..call.clone() };
    let mut found = Vec::new();
    if call.own.is_some() {
        found.push(Call { own: None, ..call.clone() });
    }
    if call.words.len() > 3 {
        let (first, second) = call.words.split_at(call.words.len() / 4 * 2);
        found.extend([with(first.to_vec()), with(second.to_vec())]);
    }
    for at in (0..call.words.len()).step_by(2) {
        let mut words = call.words.clone();
        words.drain(at..(at + 2).min(words.len()));
        found.push(with(words));
    }
    found
}

/// The call with a table's last row or half of it gone, a pattern that becomes `_`, or a deref less.
fn with_smaller_tables(call: &Call, m: &Tables) -> Vec<Call> {
    let mut found = vec![m.clone(); 8];
    found[0].list.truncate(m.list.len() / 2);
    found[1].data.truncate(m.data.len() / 2);
    found[2].patterns.pop();
    found[3].bindings.pop();
    found[4].types.pop();
    found[5].variants.pop();
    found[6].list.pop();
    found[7].data.pop();
    for (number, row) in m.patterns.iter().enumerate() {
        let mut with = |row: [u16; 7]| {
            let mut copy = m.clone();
            copy.patterns[number] = row;
            found.push(copy);
        };
        if row[0] != WILD {
            with([WILD, row[1], row[2], 0, 0, 0, 0]);
        }
        if row[2] > 0 {
            with([row[0], row[1], row[2] - 1, row[3], row[4], row[5], row[6]]);
        }
    }
    found.retain(|smaller| smaller != m && image::keeps_all_rules(smaller));
    found.into_iter().map(|m| Call { image: m.encode(), ..call.clone() }).collect()
}
