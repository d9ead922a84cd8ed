//! What the harness hears of arenas: the entries, and the number of the one that is new or is
//! about to change. The harness counts blocks, statements and locals from it.

use std::any::Any;
use std::cell::Cell;

/// The entries of an arena as a `Vec` of their type, and an entry's number.
pub type Listener = fn(&dyn Any, usize);

thread_local! {
    static LISTENER: Cell<Option<Listener>> = const { Cell::new(None) };
}

/// From now on this thread's arenas tell the listener.
pub fn listen(listener: Listener) {
    LISTENER.set(Some(listener));
}

pub(crate) fn tell<T: 'static>(entries: &Vec<T>, number: usize) {
    if cfg!(feature = "quiet") {
        return;
    }
    if let Some(listener) = LISTENER.get() {
        listener(entries, number);
    }
}
