//! Images as document 01 describes them: the six tables, their bytes, and the rules. Written from
//! the document, and sharing nothing with the code that is proved.

mod build;
pub mod kinds;
mod rules;

pub use rules::keeps_all_rules;

pub const ABSENT: u16 = 65535;

/// The bytes before the tables: count, version, six counts.
const HEADER: usize = 17;
/// The bytes of a row of each table.
const WIDTHS: [usize; 6] = [10, 6, 14, 4, 2, 1];

/// The six tables, their rows as words.
#[derive(Debug, Clone, Default, PartialEq, Eq, Hash)]
pub struct Tables {
    pub types: Vec<[u16; 5]>,
    pub variants: Vec<[u16; 3]>,
    pub patterns: Vec<[u16; 7]>,
    pub bindings: Vec<[u16; 2]>,
    pub list: Vec<u16>,
    pub data: Vec<u8>,
}

/// An operand of the list: its kind and its bytes.
#[derive(Debug, Clone, Copy, PartialEq, Eq)]
pub struct Operand<'a> {
    pub kind: u16,
    pub bytes: &'a [u8],
}

/// The tables of an image that breaks no rule.
pub fn read(image: &[u8]) -> Option<Tables> {
    let tables = tables_of(image)?;
    keeps_all_rules(&tables).then_some(tables)
}

/// The tables of an image whose frame is whole: its counts say what follows.
pub fn tables_of(image: &[u8]) -> Option<Tables> {
    if image.len() < HEADER || image[4] != 1 {
        return None;
    }
    let following = u32::from_be_bytes(image[..4].try_into().expect("four bytes"));
    if following as usize != image.len() - 4 {
        return None;
    }
    let mut words = Words { bytes: image, at: 5 };
    let counts: [usize; 6] = std::array::from_fn(|_| usize::from(words.next()));
    let rows: usize = counts.iter().zip(WIDTHS).map(|(count, width)| count * width).sum();
    if HEADER + rows != image.len() {
        return None;
    }
    Some(Tables {
        types: (0..counts[0]).map(|_| words.row()).collect(),
        variants: (0..counts[1]).map(|_| words.row()).collect(),
        patterns: (0..counts[2]).map(|_| words.row()).collect(),
        bindings: (0..counts[3]).map(|_| words.row()).collect(),
        list: (0..counts[4]).map(|_| words.next()).collect(),
        data: image[words.at..].to_vec(),
    })
}

struct Words<'a> {
    bytes: &'a [u8],
    at: usize,
}

impl Words<'_> {
    fn next(&mut self) -> u16 {
        let word = u16::from_be_bytes([self.bytes[self.at], self.bytes[self.at + 1]]);
        self.at += 2;
        word
    }

    fn row<const N: usize>(&mut self) -> [u16; N] {
        std::array::from_fn(|_| self.next())
    }
}

impl Tables {
    /// The image's bytes; counts of more than 16 bits are cut.
    pub fn encode(&self) -> Vec<u8> {
        let counts = [
            self.types.len(),
            self.variants.len(),
            self.patterns.len(),
            self.bindings.len(),
            self.list.len(),
            self.data.len(),
        ];
        let mut rest = vec![1u8];
        let mut put = |word: u16| rest.extend(word.to_be_bytes());
        counts.iter().for_each(|&count| put(count as u16));
        self.types.as_flattened().iter().for_each(|&word| put(word));
        self.variants.as_flattened().iter().for_each(|&word| put(word));
        self.patterns.as_flattened().iter().for_each(|&word| put(word));
        self.bindings.as_flattened().iter().for_each(|&word| put(word));
        self.list.iter().for_each(|&word| put(word));
        rest.extend(&self.data);
        let mut image = (rest.len() as u32).to_be_bytes().to_vec();
        image.extend(rest);
        image
    }

    /// The words of a part of the list, as far as they are there.
    pub fn words(&self, start: u16, count: usize) -> &[u16] {
        let start = usize::from(start).min(self.list.len());
        let end = (start + count).min(self.list.len());
        &self.list[start..end]
    }

    /// The operand at a word of the list, if its three words and its bytes are there.
    pub fn operand(&self, start: u16) -> Option<Operand<'_>> {
        let start = usize::from(start);
        let &[kind, offset, count] = self.list.get(start..start + 3)? else { return None };
        let offset = usize::from(offset);
        let bytes = self.data.get(offset..offset + usize::from(count))?;
        Some(Operand { kind, bytes })
    }

    /// The lowest-numbered type that a pattern's derefs bring to its type.
    pub fn root_type(&self, pattern: usize) -> Option<usize> {
        let [_, wanted, derefs, ..] = self.patterns[pattern];
        (0..self.types.len()).find(|&first| self.behind_derefs(first, derefs) == Some(wanted.into()))
    }

    /// The type behind so many references.
    pub fn behind_derefs(&self, first: usize, derefs: u16) -> Option<usize> {
        (0..derefs).try_fold(first, |type_, _| {
            let [kind, to, ..] = self.types[type_];
            (kind == kinds::REFERENCE).then_some(usize::from(to))
        })
    }
}
