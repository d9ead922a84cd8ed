//! Stand-in for smallvec: a vector whose first items lie in itself. The items are plain data.

use std::fmt;
use std::hash::{Hash, Hasher};
use std::mem::MaybeUninit;
use std::ops::Deref;
use std::slice;

/// An array of plain data.
pub trait Array {
    type Item: Copy;
    const LENGTH: usize;
}

impl<T: Copy, const N: usize> Array for [T; N] {
    type Item = T;
    const LENGTH: usize = N;
}

pub struct SmallVec<A: Array> {
    few: MaybeUninit<A>,
    /// How many items there are; all lie in `few` unless `many` is there.
    length: usize,
    /// Boxed, so that it takes one word here.
    #[allow(clippy::box_collection)]
    many: Option<Box<Vec<A::Item>>>,
}

impl<A: Array> SmallVec<A> {
    pub fn push(&mut self, item: A::Item) {
        if let Some(many) = &mut self.many {
            many.push(item);
        } else if self.length < A::LENGTH {
            // SAFETY: the place lies within the array.
            unsafe { self.few.as_mut_ptr().cast::<A::Item>().add(self.length).write(item) };
        } else {
            let mut many = self.to_vec();
            many.push(item);
            self.many = Some(Box::new(many));
        }
        self.length += 1;
    }
}

impl<A: Array> Default for SmallVec<A> {
    fn default() -> Self {
        SmallVec { few: MaybeUninit::uninit(), length: 0, many: None }
    }
}

impl<A: Array> Deref for SmallVec<A> {
    type Target = [A::Item];

    fn deref(&self) -> &[A::Item] {
        match &self.many {
            Some(many) => many,
            // SAFETY: the first `length` items were written.
            None => unsafe { slice::from_raw_parts(self.few.as_ptr().cast(), self.length) },
        }
    }
}

impl<A: Array> Clone for SmallVec<A> {
    fn clone(&self) -> Self {
        self.iter().copied().collect()
    }
}

impl<A: Array<Item: fmt::Debug>> fmt::Debug for SmallVec<A> {
    fn fmt(&self, f: &mut fmt::Formatter<'_>) -> fmt::Result {
        f.debug_list().entries(self.iter()).finish()
    }
}

impl<A: Array<Item: PartialEq>> PartialEq for SmallVec<A> {
    fn eq(&self, other: &Self) -> bool {
        **self == **other
    }
}

impl<A: Array<Item: Eq>> Eq for SmallVec<A> {}

impl<A: Array<Item: Hash>> Hash for SmallVec<A> {
    fn hash<H: Hasher>(&self, state: &mut H) {
        (**self).hash(state);
    }
}

impl<A: Array> Extend<A::Item> for SmallVec<A> {
    fn extend<I: IntoIterator<Item = A::Item>>(&mut self, items: I) {
        items.into_iter().for_each(|item| self.push(item));
    }
}

impl<A: Array> FromIterator<A::Item> for SmallVec<A> {
    fn from_iter<I: IntoIterator<Item = A::Item>>(items: I) -> Self {
        let mut made = SmallVec::default();
        made.extend(items);
        made
    }
}

impl<'a, A: Array> IntoIterator for &'a SmallVec<A> {
    type Item = &'a A::Item;
    type IntoIter = slice::Iter<'a, A::Item>;

    fn into_iter(self) -> Self::IntoIter {
        self.iter()
    }
}

#[macro_export]
macro_rules! smallvec {
    ($($item:expr),*) => {
        [$($item),*].into_iter().collect::<$crate::SmallVec<_>>()
    };
}
