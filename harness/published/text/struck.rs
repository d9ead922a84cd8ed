//! Document 02's one drop per local, made in the Rust's scopes before they are compared. Each live
//! mark of the Rust's enters its local into the last scope; an entry of a local that an open scope
//! already held is struck out.

use super::DropScope;

/// Of the entries of the last scope those behind the first `found` were made by the call that is
/// over. Strikes out each whose local stands before it in any scope, and answers how many.
pub(super) fn strike_out(scopes: &mut [DropScope], found: usize) -> usize {
    let Some((last, outer)) = scopes.split_last_mut() else { return 0 };
    let made = last.locals.split_off(found);
    let count = made.len();
    for local in made {
        let held = outer.iter().chain([&*last]).any(|scope| scope.locals.contains(&local));
        if !held {
            last.locals.push(local);
        }
    }
    found + count - last.locals.len()
}
