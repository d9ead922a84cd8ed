//! The Rattle side: what is lent, and the one function of liblowering_c.a.

use image::{ABSENT, Tables};
use published::prepared::Made;

/// Where the tables of locals, scopes and entries begin in a body, behind 512 blocks of 12 words and 1,024 statements of 49.
const LOCALS: usize = 12 * 512 + 49 * 1024;
const SCOPES: usize = LOCALS + 512;
const ENTRIES: usize = SCOPES + 32;
const BODY_WORDS: usize = ENTRIES + 1024;
const VISIT_WORDS: usize = 512;

unsafe extern "C" {
    /// A slice is a pointer and a length, an array a pointer.
    fn fithongu_pattern_match(
        image: *const u8,
        image_length: usize,
        bindings: *const u16,
        bindings_length: usize,
        body: *mut [u16; BODY_WORDS],
        visits: *mut [u16; VISIT_WORDS],
        call: *const [u16; 9],
        answer: *mut [u16; 10],
    );
}

/// An image, with what a caller hands in for it.
pub struct Given {
    pub bytes: Vec<u8>,
    /// The types of local 0 and of the bindings' locals.
    types: Vec<u16>,
    /// The bindings' locals.
    numbers: Vec<u16>,
    /// How many entries the scope has, all of local 0.
    entries: u16,
    root: u16,
}

impl Given {
    pub fn new(tables: &Tables, place_type: usize, entries: usize) -> Given {
        let mut types = vec![place_type as u16];
        types.extend(tables.bindings.iter().map(|row| row[0]));
        let numbers = (1..types.len() as u16).collect();
        let root = tables.patterns.len() as u16 - 1;
        Given { bytes: tables.encode(), types, numbers, entries: entries as u16, root }
    }
}

/// The body and the visits that are lent. They are never cleared between lowerings.
pub struct Lent {
    body: Box<[u16; BODY_WORDS]>,
    visits: [u16; VISIT_WORDS],
}

impl Lent {
    pub fn new() -> Lent {
        Lent { body: Box::new([0; BODY_WORDS]), visits: [0; VISIT_WORDS] }
    }

    /// Hands in a body of one open block, local 0, the bindings' locals and one scope, and lowers; none for a refusal.
    pub fn lower(&mut self, given: &Given) -> Option<Made> {
        let [number, _, _, then, other, blocks, statements, locals, _, _] = self.call(given, given.root);
        (number == 0).then(|| Made {
            then: then.into(),
            other: (other != ABSENT).then_some(other.into()),
            blocks: blocks.into(),
            statements: statements.into(),
            locals: locals.into(),
        })
    }

    /// The same call with a pattern that there is not: image and body are read and tested, and it is refused with 2.
    pub fn read(&mut self, given: &Given) -> u16 {
        self.call(given, ABSENT)[0]
    }

    fn call(&mut self, given: &Given, pattern: u16) -> [u16; 10] {
        self.body[..12].fill(0);
        self.body[LOCALS..][..given.types.len()].copy_from_slice(&given.types);
        self.body[SCOPES] = 0;
        self.body[ENTRIES..][..usize::from(given.entries)].fill(0);
        let call = [1, 0, given.types.len() as u16, 1, given.entries, pattern, 0, ABSENT, 0];
        let mut answer = [0; 10];
        // SAFETY: a slice's pointer stands beside its length; the four arrays have the function's lengths.
        unsafe {
            fithongu_pattern_match(
                given.bytes.as_ptr(),
                given.bytes.len(),
                given.numbers.as_ptr(),
                given.numbers.len(),
                &mut *self.body,
                &mut self.visits,
                &call,
                &mut answer,
            );
        }
        answer
    }
}
