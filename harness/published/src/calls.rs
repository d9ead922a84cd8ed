//! The calls on a body, its scopes and patterns, and what the published text makes of them.

use image::kinds::{ADT, ARRAY, ENUM, NAMES_BINDING, PATH, REFERENCE, SLICE_TYPE, TUPLE_TYPE};
use image::{ABSENT, Tables};

use crate::answer::{Answer, Outcome, needs_scope, of_made, quietly};
use crate::mir::lower_body_to_mir;
use crate::next_solver::without_types;
use crate::store;
use crate::trace;
use crate::world::World;

/// What a call finds: how many blocks and statements there are, the locals' types, and each scope's
/// locals; and what is handed to a call on a pattern besides: the bindings' locals, and the place's
/// root and elements, each a kind with its numbers.
#[derive(Debug, Clone, Default)]
pub struct Handed {
    pub blocks: usize,
    pub statements: usize,
    pub locals: Vec<u16>,
    pub scopes: Vec<Vec<usize>>,
    pub bindings: Vec<Option<usize>>,
    pub root: usize,
    pub elements: Vec<[u16; 3]>,
    /// The listing is asked for, with the memory of strings in it.
    pub listed: bool,
}

/// A call with its numbers.
#[derive(Debug, Clone, Copy)]
pub enum Call {
    Temp(u16, usize),
    MergeBlocks(Option<usize>, Option<usize>),
    PushDropScope,
    PopAssumeDropped,
    PopAndDrop(usize),
    DropUntilScope(usize, usize),
    PatternMatch(usize, usize, Option<usize>),
    PatternMatchAssignment(usize, usize),
    MatchSelfParam(usize, usize, usize),
}

impl Call {
    pub fn on_a_pattern(self) -> bool {
        self.visits() || matches!(self, Call::MatchSelfParam(..))
    }

    /// It may mark locals live.
    pub fn marks_live(self) -> bool {
        self.on_a_pattern() || matches!(self, Call::Temp(..))
    }

    /// It is handed a table of visits.
    pub fn visits(self) -> bool {
        matches!(self, Call::PatternMatch(..) | Call::PatternMatchAssignment(..))
    }
}

/// What a call on a body answers.
#[derive(Debug, Clone, Copy, PartialEq, Eq)]
pub enum CallAnswer {
    Local(usize),
    Block(Option<usize>),
    Done,
    Unsized,
    Panicked,
}

/// What a call made: all locals and scopes, and the rows of the new statements and of the
/// terminators that it set, these with their blocks. A call on a pattern has an outcome besides,
/// whose listing is its answer's words.
pub struct Made {
    pub answer: CallAnswer,
    pub outcome: Option<Outcome>,
    pub listing: Option<String>,
    pub blocks: usize,
    pub locals: Vec<u16>,
    pub scopes: Vec<Vec<usize>>,
    /// How many entries were struck out of the last scope.
    pub struck: usize,
    pub statements: Vec<Vec<u16>>,
    pub terminators: Vec<(usize, Vec<u16>)>,
}

/// Does a call on a body, over an image that keeps all rules.
pub fn call(tables: &Tables, handed: &Handed, call: Call) -> Made {
    let world = World::enter(tables.clone());
    let store = store::store(tables);
    let inference = store::inference(&world);
    trace::start(tables.patterns.len());
    trace::found(handed.statements, &handed.scopes.concat());
    let untyped = call.visits() && !downcasts_apply(tables, handed);
    without_types(untyped);
    let (mut made, matched) = quietly(|| lower_body_to_mir(&world, &store, &inference, handed, call));
    without_types(false);
    made.outcome = matched.map(|matched| in_words(tables, handed, of_made(matched, trace::so_far())));
    made
}

/// The outcome with what the Rust's error or panic does not say: which path has no local, and that
/// no scope is open.
fn in_words(tables: &Tables, handed: &Handed, mut outcome: Outcome) -> Outcome {
    let entered = outcome.trace.entered;
    match &mut outcome.answer {
        Answer::Refused([9, asker, _]) => {
            let path = entered.filter(|&p| {
                let [kind, _, _, a, b, ..] = tables.patterns[p];
                kind == PATH && a == NAMES_BINDING && handed.bindings[usize::from(b)].is_none()
            });
            *asker = path.map_or(*asker, |p| p as u16);
        }
        Answer::Stopped(refusal @ [0, ..], said) if handed.scopes.is_empty() && needs_scope(said) => {
            *refusal = [14, entered.map_or(ABSENT, |p| p as u16), 0];
        }
        _ => {}
    }
    outcome
}

/// What lies at a place.
#[derive(Clone, Copy)]
enum Lies {
    Type(u16),
    Variant(u16),
    /// A part of an array of this.
    Part(u16),
}

/// Whether each Downcast of the place that is handed in names a variant of the enum that lies
/// there, which the Rust does not ask: there document 01 alone has number 12.
fn downcasts_apply(m: &Tables, handed: &Handed) -> bool {
    let mut lies = Lies::Type(handed.locals[handed.root]);
    for &element in &handed.elements {
        if element[0] == 5 {
            let [kind, a, b, c, _] = match lies {
                Lies::Type(type_) => type_row(m, type_),
                _ => [0; 5],
            };
            if kind != ADT || c != ENUM || !(a..a + b).contains(&element[1]) {
                return false;
            }
            lies = Lies::Variant(element[1]);
            continue;
        }
        match behind(m, lies, element) {
            Some(next) => lies = next,
            None => return true,
        }
    }
    true
}

/// The row of a type; of bool, usize and i128 zeros.
fn type_row(m: &Tables, type_: u16) -> [u16; 5] {
    m.types.get(usize::from(type_)).copied().unwrap_or_default()
}

/// What lies behind an element that is no Downcast, or none where it does not apply.
fn behind(m: &Tables, lies: Lies, [element, number, _]: [u16; 3]) -> Option<Lies> {
    let field = |first: u16, count: u16| {
        (number < count).then(|| Lies::Type(m.words(first, count.into())[usize::from(number)]))
    };
    let of_variant = |variant: u16| {
        let [first, count, _] = m.variants[usize::from(variant)];
        field(first, count)
    };
    let type_ = match (lies, element) {
        (Lies::Type(type_), _) => type_,
        (Lies::Variant(variant), 1) => return of_variant(variant),
        (Lies::Part(of), 2 | 3) => return Some(Lies::Type(of)),
        (Lies::Part(_), 4) => return Some(lies),
        _ => return None,
    };
    let [kind, a, b, c, _] = type_row(m, type_);
    match (element, kind) {
        (0, REFERENCE) | (2 | 3, ARRAY | SLICE_TYPE) => Some(Lies::Type(a)),
        (1, TUPLE_TYPE) => field(a, b),
        (1, ADT) if c != ENUM => of_variant(a),
        (4, SLICE_TYPE) => Some(lies),
        (4, ARRAY) => Some(Lies::Part(a)),
        _ => None,
    }
}
