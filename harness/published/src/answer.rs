//! What the published text answers for an image, in document 01's words.

use std::cell::{Cell, RefCell};
use std::panic::{self, AssertUnwindSafe};
use std::sync::Once;

use hir_def::hir::{FLOAT_ASKED, PatId};
use image::{ABSENT, Tables};

use crate::db::HirDatabase;
use crate::mir::{MirLowerError, lower_to_mir_with_store};
use crate::next_solver::Ty;
use crate::store;
use crate::trace::{self, Trace};
use crate::world::World;

/// A refusal: number, pattern, reason.
pub type Refusal = [u16; 3];

#[derive(Debug, Clone, PartialEq, Eq)]
pub enum Answer {
    Listing(String),
    /// An error that document 01 has a number for.
    Refused(Refusal),
    /// The Rust panics, or meets what the stand-ins leave out (the size of a type that is no
    /// integer, a float's value); the number is what document 01 adds for it, 0 for none.
    Stopped(Refusal, String),
}

/// What document 02 has changed in a body of the Rust's.
#[derive(Debug, Clone, Copy, Default, PartialEq, Eq)]
pub struct Changed {
    /// The test of a half-open range's end, or the offset of a suffix item.
    pub replaced: bool,
    /// Each of several discriminant tests has a local of its own.
    pub parted: bool,
    /// Entries of locals that an open scope already held are struck out.
    pub struck: bool,
}

/// A listing of a body that document 02 has changed.
#[derive(Debug, Clone, Default)]
pub struct Listed {
    pub text: String,
    pub changed: Changed,
}

pub struct Outcome {
    pub answer: Answer,
    pub trace: Trace,
    /// What is another in a listing that is the answer.
    pub changed: Changed,
}

/// How the last pattern of an image is lowered and listed.
#[derive(Debug, Clone, Copy, Default)]
pub struct How {
    /// By `pattern_match_assignment`; if not, by `pattern_match`.
    pub assigns: bool,
    /// In the listing the memory of a string stands behind its bytes and a colon.
    pub contents: bool,
    /// The listing ends with a line `visits` and how often each pattern was visited.
    pub visits: bool,
}

/// Lowers the last pattern of an image that keeps all rules, against a place of a type.
pub fn lower(tables: &Tables, place_type: usize, how: How) -> Outcome {
    let world = World::enter(tables.clone());
    let store = store::store(tables);
    let inference = store::inference(&world);
    let db: &dyn HirDatabase = &*world;
    let root = tables.patterns.len() - 1;
    let pattern = PatId::from_number(root);
    trace::start(tables.patterns.len());
    let place_type = Ty::numbered(place_type as u16);
    let made = quietly(|| {
        panic::catch_unwind(AssertUnwindSafe(|| {
            lower_to_mir_with_store(db, &store, &inference, place_type, pattern, how.assigns, 0)
                .map(|lowered| lowered.listing(db, tables, root as u16, how.contents))
        }))
    });
    let mut outcome = of_made(made, trace::so_far());
    if let (Answer::Listing(listing), true) = (&mut outcome.answer, how.visits) {
        *listing += &outcome.trace.visits_line();
    }
    outcome
}

/// A listing, an error or a panic, in document 01's words.
pub(crate) fn of_made(made: std::thread::Result<Result<Listed, MirLowerError<'_>>>, trace: Trace) -> Outcome {
    let changed = made
        .as_ref()
        .map_or(Changed::default(), |made| made.as_ref().map_or(Changed::default(), |listed| listed.changed));
    let answer = match made {
        Ok(Ok(listed)) => Answer::Listing(listed.text),
        Ok(Err(error)) => of_error(&error, &trace),
        Err(_) => of_panic(&trace),
    };
    Outcome { answer, trace, changed }
}

fn number(pattern: Option<usize>) -> u16 {
    pattern.map_or(ABSENT, |pattern| pattern as u16)
}

fn of_error(error: &MirLowerError<'_>, trace: &Trace) -> Answer {
    let visited = number(trace.entered);
    let refused = |number| Answer::Refused([number, visited, 0]);
    match error {
        MirLowerError::IncompletePattern => refused(3),
        MirLowerError::TypeError(why) => match type_error(why) {
            Some(reason) => Answer::Refused([4, visited, reason]),
            None => Answer::Stopped([6, visited, 0], format!("{error:?}")),
        },
        MirLowerError::UnresolvedField => refused(5),
        MirLowerError::NotSupported(_) => refused(6),
        MirLowerError::UnsizedTemporary(_) => refused(8),
        MirLowerError::InaccessibleLocal => Answer::Refused([9, number(trace.binds), 0]),
        MirLowerError::IncompleteExpr => refused(10),
        MirLowerError::UnresolvedName(_) => refused(13),
        MirLowerError::LayoutError(_) => Answer::Stopped([6, visited, 0], format!("{error:?}")),
        other => Answer::Stopped([0, visited, 0], format!("{other:?}")),
    }
}

include!(concat!(env!("OUT_DIR"), "/type_errors.rs"));

/// Document 01's reason for a text of `TypeError`; the text on floats, in lower.rs, has none.
fn type_error(why: &str) -> Option<u16> {
    TYPE_ERRORS.iter().position(|&text| text == why).map(|place| place as u16 + 1)
}

/// A panic by its text and the file it comes from: `split_at` is number 7, a float's value 6, and
/// a projection that does not apply, all of which mir.rs finds, 12.
fn of_panic(trace: &Trace) -> Answer {
    let said = SAID.take();
    let found = if said.contains("mid > len") {
        7
    } else if said.contains(FLOAT_ASKED) {
        6
    } else if said.contains("mir/mod.rs") || said.contains("next_solver") {
        12
    } else {
        0
    };
    Answer::Stopped([found, number(trace.entered), 0], said)
}

/// The panic is that of lower.rs where no scope is open.
pub(crate) fn needs_scope(said: &str) -> bool {
    said.contains("mir/lower.rs") && said.contains("`Option::unwrap()` on a `None` value")
}

thread_local! {
    static LOWERING: Cell<bool> = const { Cell::new(false) };
    static SAID: RefCell<String> = RefCell::default();
}

/// Does something whose panics are caught; the text of the last is kept instead of printed.
pub(crate) fn quietly<T>(done: impl FnOnce() -> T) -> T {
    keep_texts();
    LOWERING.set(true);
    let made = done();
    LOWERING.set(false);
    made
}

fn keep_texts() {
    static ONCE: Once = Once::new();
    ONCE.call_once(|| {
        let print = panic::take_hook();
        panic::set_hook(Box::new(move |info| {
            if LOWERING.get() {
                SAID.set(info.to_string());
            } else {
                print(info);
            }
        }));
    });
}
