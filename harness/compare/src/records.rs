//! The records of the stored lists, as `replay` reads them: a byte, the record's sort; four
//! big-endian bytes n, four big-endian bytes z and n bytes, the image being these and z zeros; and
//! what its sort has besides.

/// An image, for its counts.
pub const IMAGE: u8 = 1;
/// An image, for its listing.
pub const LISTING: u8 = 2;
/// A script: behind the image four big-endian bytes m, and m commands of four big-endian words.
pub const SCRIPT: u8 = 3;
/// A call on parameters: behind the image four big-endian bytes k, and k big-endian words.
pub const PARAMETERS: u8 = 4;
/// A question whether a pattern fits: the same, with other words.
pub const FIT: u8 = 5;
/// Calls on texts: behind the sheet a name table, and then texts, each with its expected type.
pub const READING: u8 = 6;

pub struct Record {
    pub sort: u8,
    pub image: Vec<u8>,
    pub words: Vec<u16>,
}

/// The records of a list.
pub fn read(mut list: &[u8]) -> Vec<Record> {
    let mut found = Vec::new();
    while !list.is_empty() {
        let sort = list[0];
        let (kept, zeros) = (number(list, 1), number(list, 5));
        let mut image = list[9..9 + kept].to_vec();
        image.resize(kept + zeros, 0);
        list = &list[9 + kept..];
        if sort == READING {
            list = behind_texts(list);
        }
        let width = width(sort);
        let mut words = Vec::new();
        if width > 0 {
            let (own, rest) = list[4..].split_at(2 * width * number(list, 0));
            words.extend(own.chunks(2).map(|word| u16::from_be_bytes([word[0], word[1]])));
            list = rest;
        }
        found.push(Record { sort, image, words });
    }
    found
}

/// What follows the name table and the texts of calls.
fn behind_texts(list: &[u8]) -> &[u8] {
    let list = &list[4 + number(list, 0)..];
    let behind_text = |rest: &mut &[u8]| *rest = &rest[6 + number(rest, 2)..];
    let mut rest = &list[4..];
    (0..number(list, 0)).for_each(|_| behind_text(&mut rest));
    rest
}

fn number(list: &[u8], at: usize) -> usize {
    u32::from_be_bytes(list[at..at + 4].try_into().expect("four bytes")) as usize
}

/// How many words each of those that a sort has besides takes.
fn width(sort: u8) -> usize {
    match sort {
        SCRIPT => 4,
        PARAMETERS | FIT => 1,
        _ => 0,
    }
}

/// A record of an image and words.
pub fn entry_with(sort: u8, image: &[u8], words: &[u16]) -> Vec<u8> {
    let mut entry = entry(sort, image);
    entry.extend(((words.len() / width(sort)) as u32).to_be_bytes());
    words.iter().for_each(|word| entry.extend(word.to_be_bytes()));
    entry
}

/// A record of an image alone.
pub fn entry(sort: u8, image: &[u8]) -> Vec<u8> {
    let kept = image.iter().rposition(|&byte| byte != 0).map_or(0, |last| last + 1);
    let mut entry = vec![sort];
    entry.extend((kept as u32).to_be_bytes());
    entry.extend(((image.len() - kept) as u32).to_be_bytes());
    entry.extend(&image[..kept]);
    entry
}
