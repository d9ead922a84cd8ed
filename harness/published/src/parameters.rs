//! What the published text makes of a function's parameters.

use std::panic::{self, AssertUnwindSafe};

use hir_def::hir::{BindingId, PatId};
use image::kinds::BIND;
use image::{ABSENT, Tables};

use crate::answer::{Answer, Outcome, needs_scope, of_made, quietly};
use crate::db::HirDatabase;
use crate::mir::mir_body_query;
use crate::next_solver::Ty;
use crate::store;
use crate::trace;
use crate::world::World;

/// Parameters: each a pattern and a type, self as a binding and a type, and how many scopes are
/// open.
#[derive(Debug, Clone, Default)]
pub struct Parameters {
    pub scopes: usize,
    pub self_binding: Option<(u16, u16)>,
    pub list: Vec<(u16, u16)>,
}

/// What is done after the parameters are lowered, from the block that is returned.
#[derive(Debug, Clone, Copy, Default, PartialEq, Eq)]
pub enum After {
    #[default]
    Nothing,
    /// `drop_until_scope` of scope 0.
    DropUntilScope,
    /// `pop_and_drop`.
    PopAndDrop,
}

/// How parameters are lowered: the body has so many locals of type 0 before.
#[derive(Debug, Clone, Copy, Default)]
pub struct Setting {
    pub locals: usize,
    pub after: After,
}

/// What `lower_params_and_bindings` is handed: parameters, each a pattern and its type, self as a
/// binding and a type, `pick_binding`'s answers, and how many locals of type 0 and scopes there are.
pub struct HandedParameters<'a, 'db> {
    pub locals: usize,
    pub scopes: usize,
    pub self_binding: Option<(BindingId, Ty<'db>)>,
    pub list: &'a [(PatId, Ty<'db>)],
    pub picked: &'a [bool],
}

/// Lowers parameters over an image that keeps all rules. The listing's then is the block that is
/// returned, and three lines follow it: the parameters' locals, the bindings' and the entries.
pub fn lower_parameters(tables: &Tables, parameters: &Parameters, setting: Setting) -> Outcome {
    let world = World::enter(tables.clone());
    let store = store::store(tables);
    let inference = store::inference(&world);
    let db: &dyn HirDatabase = &*world;
    let binding = |number: u16| BindingId::from_number(number.into());
    let pattern = |&(p, type_): &(u16, u16)| (PatId::from_number(p.into()), Ty::numbered(type_));
    let list: Vec<(PatId, Ty<'_>)> = parameters.list.iter().map(pattern).collect();
    let roots: Vec<u16> = parameters.list.iter().map(|parameter| parameter.0).collect();
    let picked: Vec<bool> = tables.bindings.iter().map(|row| row[1] == 1).collect();
    let handed = HandedParameters {
        locals: setting.locals,
        scopes: parameters.scopes,
        self_binding: parameters.self_binding.map(|(b, type_)| (binding(b), Ty::numbered(type_))),
        list: &list,
        picked: &picked,
    };
    trace::start(tables.patterns.len());
    // The parameters' own entries, which are there before the first live mark.
    let own = parameters.list.len() + usize::from(parameters.self_binding.is_some());
    trace::found(0, &(setting.locals..setting.locals + own).collect::<Vec<_>>());
    let made = quietly(|| {
        panic::catch_unwind(AssertUnwindSafe(|| {
            let lowered = mir_body_query(db, &store, &inference, handed, setting.after);
            (lowered.bound(picked.len()), lowered.listing(db, tables, &roots, picked.len()))
        }))
    });
    let (bound, made) = match made {
        Ok((bound, listing)) => (bound, Ok(listing)),
        Err(panic) => (Vec::new(), Err(panic)),
    };
    let mut outcome = of_made(made, trace::so_far());
    match &mut outcome.answer {
        Answer::Refused([9, asker, _]) => *asker = asking(tables, parameters, &bound, *asker),
        Answer::Stopped(refusal @ [0, ..], said) if parameters.scopes == 0 && needs_scope(said) => {
            *refusal = [14, outcome.trace.entered.map_or(ABSENT, |pattern| pattern as u16), 0];
        }
        _ => {}
    }
    outcome
}

/// The pattern whose binding has no local: the Bind that was asked for last if it has none, else
/// the first parameter with none, which is asked for before it is visited.
fn asking(tables: &Tables, parameters: &Parameters, bound: &[Option<usize>], last: u16) -> u16 {
    let has_none = |p: u16| {
        let [kind, _, _, binding, ..] = tables.patterns[usize::from(p)];
        kind == BIND && bound[usize::from(binding)].is_none()
    };
    if last != ABSENT && has_none(last) {
        return last;
    }
    parameters.list.iter().map(|parameter| parameter.0).find(|&p| has_none(p)).unwrap_or(last)
}
