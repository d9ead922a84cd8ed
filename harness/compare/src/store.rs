//! Which of the compared images are kept in the repository, where its stored list of listings takes them from.

use std::collections::{BTreeMap, HashSet};

use published::How;

use crate::judge;
use crate::plan::Source;

/// Of one sort of images so many are kept that are accepted, and so many with the same refusal.
const ACCEPTED: usize = 16;
const REFUSED: usize = 3;
/// An image that is kept has at most so many bytes, and its listing too.
const SHORT: (usize, usize) = (700, 1500);
/// The same of images at the limits; there the longest listings are kept besides.
const AT_LIMITS: (usize, usize) = (5000, 6000);
const LONGEST: usize = 28000;

const HEAD: &str =
    "# Images of the harness, made by `harness/run images`: of each sort of images and each answer some.
# A line has the sort, the image in hexadecimal, and how many zero bytes follow.
";

/// The kept images, as the text of a file.
pub fn text(sources: Vec<Source>) -> String {
    let mut text = HEAD.to_owned();
    let mut kept: BTreeMap<(String, String), usize> = BTreeMap::new();
    let mut seen = HashSet::new();
    for source in sources {
        for image in source.given {
            let expected = judge::expected(&image, How::default());
            let group = (source.name.clone(), expected.sort.clone());
            let so_far = kept.entry(group).or_default();
            let limits = source.name == "limits";
            if (limits || *so_far < most(&expected.sort))
                && is_short(limits, image.len(), expected.told().len())
                && seen.insert(image.clone())
            {
                *so_far += 1;
                text.push_str(&line(&source.name, &image));
            }
        }
    }
    text
}

fn most(answer: &str) -> usize {
    if answer == "accepted" { ACCEPTED } else { REFUSED }
}

fn is_short(limits: bool, image: usize, listing: usize) -> bool {
    let (most_image, most_listing) = if limits { AT_LIMITS } else { SHORT };
    image <= most_image && (listing <= most_listing || limits && LONGEST <= listing)
}

fn line(sort: &str, image: &[u8]) -> String {
    let kept = image.iter().rposition(|&byte| byte != 0).map_or(0, |last| last + 1);
    let hexadecimal: String = image[..kept].iter().map(|byte| format!("{byte:02x}")).collect();
    format!("{} {hexadecimal} {}\n", sort.replace(' ', "_"), image.len() - kept)
}
