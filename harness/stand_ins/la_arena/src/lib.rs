//! Stand-in for la_arena: indices that know what they index, arenas, and maps by index.
//! An arena tells the probe of each new entry and of each entry that is about to change.

mod map;
pub mod probe;

use std::fmt;
use std::hash::{Hash, Hasher};
use std::marker::PhantomData;
use std::ops::{Index, IndexMut};

pub use map::ArenaMap;

#[derive(Debug, Clone, Copy, PartialEq, Eq, PartialOrd, Ord, Hash)]
pub struct RawIdx(u32);

impl RawIdx {
    pub const fn from_u32(number: u32) -> Self {
        RawIdx(number)
    }

    pub const fn into_u32(self) -> u32 {
        self.0
    }
}

impl From<u32> for RawIdx {
    fn from(number: u32) -> Self {
        RawIdx(number)
    }
}

pub struct Idx<T> {
    raw: RawIdx,
    of: PhantomData<fn() -> T>,
}

impl<T> Idx<T> {
    pub const fn from_raw(raw: RawIdx) -> Self {
        Idx { raw, of: PhantomData }
    }

    pub const fn into_raw(self) -> RawIdx {
        self.raw
    }

    pub fn number(self) -> usize {
        self.raw.0 as usize
    }

    pub fn from_number(number: usize) -> Self {
        Idx::from_raw(RawIdx(u32::try_from(number).expect("an index has 32 bits")))
    }
}

impl<T> Clone for Idx<T> {
    fn clone(&self) -> Self {
        *self
    }
}

impl<T> Copy for Idx<T> {}

impl<T> PartialEq for Idx<T> {
    fn eq(&self, other: &Self) -> bool {
        self.raw == other.raw
    }
}

impl<T> Eq for Idx<T> {}

impl<T> Hash for Idx<T> {
    fn hash<H: Hasher>(&self, state: &mut H) {
        self.raw.hash(state);
    }
}

impl<T> fmt::Debug for Idx<T> {
    fn fmt(&self, f: &mut fmt::Formatter<'_>) -> fmt::Result {
        write!(f, "Idx({})", self.raw.0)
    }
}

#[derive(Debug, Clone, PartialEq, Eq)]
pub struct Arena<T> {
    data: Vec<T>,
}

impl<T> Default for Arena<T> {
    fn default() -> Self {
        Arena::new()
    }
}

impl<T> Arena<T> {
    pub const fn new() -> Self {
        Arena { data: Vec::new() }
    }

    pub fn len(&self) -> usize {
        self.data.len()
    }

    pub fn is_empty(&self) -> bool {
        self.data.is_empty()
    }

    pub fn values(&self) -> &[T] {
        &self.data
    }

    pub fn iter(&self) -> impl DoubleEndedIterator<Item = (Idx<T>, &T)> + ExactSizeIterator + Clone {
        self.data.iter().enumerate().map(|(number, it)| (Idx::from_number(number), it))
    }

    pub fn iter_mut(&mut self) -> impl Iterator<Item = (Idx<T>, &mut T)> {
        self.data.iter_mut().enumerate().map(|(number, it)| (Idx::from_number(number), it))
    }

    pub fn shrink_to_fit(&mut self) {
        self.data.shrink_to_fit();
    }
}

impl<T: 'static> Arena<T> {
    pub fn alloc(&mut self, value: T) -> Idx<T> {
        self.data.push(value);
        probe::tell(&self.data, self.data.len() - 1);
        Idx::from_number(self.data.len() - 1)
    }
}

/// The probe is not told of these.
impl<T> FromIterator<T> for Arena<T> {
    fn from_iter<I: IntoIterator<Item = T>>(entries: I) -> Self {
        Arena { data: entries.into_iter().collect() }
    }
}

impl<T> Index<Idx<T>> for Arena<T> {
    type Output = T;

    fn index(&self, idx: Idx<T>) -> &T {
        &self.data[idx.number()]
    }
}

impl<T: 'static> IndexMut<Idx<T>> for Arena<T> {
    fn index_mut(&mut self, idx: Idx<T>) -> &mut T {
        probe::tell(&self.data, idx.number());
        &mut self.data[idx.number()]
    }
}
