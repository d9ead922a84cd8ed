//! Damaged copies of images: words changed, bytes changed, ends cut off or added. Some of them
//! still keep every rule.

use image::{ABSENT, Tables};

use crate::rng::Rng;

/// A damaged copy of an image's bytes.
pub fn damaged(rng: &mut Rng, image: &[u8]) -> Vec<u8> {
    let mut copy = image.to_vec();
    match rng.below(12) {
        0 => copy.truncate(rng.below(image.len() + 1)),
        1 => copy.extend((0..rng.between(1, 3)).map(|_| rng.pick(&[0u8, 1, 255]))),
        2 => {
            copy.truncate(rng.between(5.min(image.len()), image.len()));
            set_count(&mut copy);
        }
        3 => {
            let at = rng.below(copy.len());
            copy[at] = rng.next() as u8;
        }
        _ => {
            for _ in 0..rng.between(1, 2) {
                change_word(rng, &mut copy);
            }
        }
    }
    copy
}

/// Makes the first four bytes say what follows.
fn set_count(image: &mut [u8]) {
    if image.len() >= 4 {
        let count = (image.len() - 4) as u32;
        image[..4].copy_from_slice(&count.to_be_bytes());
    }
}

/// One of the words behind the version byte becomes another, mostly a likely one.
fn change_word(rng: &mut Rng, image: &mut [u8]) {
    let words = image.len().saturating_sub(5) / 2;
    if words == 0 {
        return;
    }
    let first = if words > 6 && rng.percent(90) { 6 } else { 0 };
    let at = 5 + 2 * rng.between(first, words - 1);
    let old = u16::from_be_bytes([image[at], image[at + 1]]);
    let likely = [0, 1, 2, 3, 5, 9, 16, 17, old.wrapping_add(1), old.wrapping_sub(1), ABSENT];
    let new = if rng.percent(90) { rng.pick(&likely) } else { rng.next() as u16 };
    image[at..at + 2].copy_from_slice(&new.to_be_bytes());
}

/// Changes one word of a pattern's row or of the list, so that the image likely keeps its rules.
pub fn nudged(rng: &mut Rng, m: &Tables) -> Tables {
    let mut copy = m.clone();
    let near =
        |rng: &mut Rng, old: u16| rng.pick(&[0, 1, 2, old.wrapping_add(1), old.wrapping_sub(1), ABSENT]);
    if !copy.list.is_empty() && rng.percent(30) {
        let at = rng.below(copy.list.len());
        copy.list[at] = near(rng, copy.list[at]);
    } else {
        let row = rng.below(copy.patterns.len());
        let word = rng.below(7);
        let row = &mut copy.patterns[row];
        row[word] = if word == 0 { rng.below(17) as u16 } else { near(rng, row[word]) };
    }
    copy
}
