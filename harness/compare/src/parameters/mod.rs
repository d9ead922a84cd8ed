//! Compares `lower_params_and_bindings`: calls by chance, and what both sides answer.

mod generate;
mod limits;
mod plan;
mod shrink;

use image::kinds::BIND;
use image::{ABSENT, Tables};
use published::Answer;
use published::parameters::{Parameters, lower_parameters};

use crate::judge::{self, Expected};
use crate::other::Other;
use crate::records;
use crate::run::Given;

pub use plan::{read_list, sources};

/// A list has at most so many parameters.
const MOST: usize = 64;

/// A call: an image, how many scopes are open, self as a binding and a type, and the list's words, a
/// pattern and a type for each parameter.
#[derive(Debug, Clone, PartialEq, Eq, Hash)]
pub struct Call {
    pub image: Vec<u8>,
    pub scopes: u16,
    pub own: Option<(u16, u16)>,
    pub words: Vec<u16>,
}

impl Call {
    /// The words behind the image.
    fn all_words(&self) -> Vec<u16> {
        let (binding, type_) = self.own.unwrap_or_default();
        let mut all = vec![self.scopes, self.own.is_some().into(), binding, type_];
        all.extend(&self.words);
        all
    }

    /// "At most 64 parameters", each of which names a pattern and a type.
    fn list(&self, m: &Tables) -> Option<Vec<(u16, u16)>> {
        let pairs = self.words.chunks_exact(2);
        let whole = pairs.remainder().is_empty();
        let list: Vec<(u16, u16)> = pairs.map(|pair| (pair[0], pair[1])).collect();
        let named = |&(p, type_): &(u16, u16)| {
            usize::from(p) < m.patterns.len() && usize::from(type_) < m.types.len()
        };
        (whole && list.len() <= MOST && list.iter().all(named)).then_some(list)
    }

    /// "a parameter is itself a Bind of that same binding, with no subpattern and annotation 0 or 1"
    fn binds_self_again(&self, m: &Tables, list: &[(u16, u16)]) -> bool {
        self.own.is_some_and(|(binding, _)| {
            list.iter().any(|&(p, _)| {
                let [kind, _, _, bound, sub, _, annotation] = m.patterns[usize::from(p)];
                kind == BIND && bound == binding && sub == ABSENT && annotation < 2
            })
        })
    }

    fn self_names(&self, m: &Tables) -> bool {
        self.own.is_none_or(|(binding, type_)| {
            usize::from(binding) < m.bindings.len() && usize::from(type_) < m.types.len()
        })
    }
}

impl Given for Call {
    const NAME: &'static str = "calls";

    fn entry(&self) -> Vec<u8> {
        let words = self.all_words();
        let mut entry = records::entry(records::PARAMETERS, &self.image);
        entry.extend((words.len() as u32).to_be_bytes());
        entry.extend(words.iter().flat_map(|word| word.to_be_bytes()));
        entry
    }

    fn expected(&self, other: &Other) -> Expected {
        let refused = |number: u16, what: &str| {
            judge::text(format!("refused {number} for {what} alone)"), format!("refused {number} 65535 0\n"))
        };
        let Some(tables) = image::read(&self.image) else { return refused(1, "the image (document 01") };
        let Some(list) = self.list(&tables) else { return refused(1, "the list (document 01") };
        if self.binds_self_again(&tables, &list) {
            return refused(1, "self bound again (document 02");
        }
        if !self.self_names(&tables) {
            return refused(2, "self (document 01");
        }
        let parameters = Parameters { scopes: self.scopes.into(), self_binding: self.own, list };
        let mut outcome = lower_parameters(&tables, &parameters, other.setting);
        if let (Answer::Listing(listing), true) = (&mut outcome.answer, other.how.visits) {
            *listing += &outcome.trace.visits_line();
        }
        judge::of_outcome(&tables, outcome)
    }

    fn smallest(&self, other: &Other) -> Self {
        shrink::smallest(self, other)
    }

    fn told(&self) -> String {
        format!("{}scopes, self and list: {:?}\n", self.image.told(), self.all_words())
    }
}
