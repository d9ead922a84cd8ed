//! A map from indices to values.

use std::marker::PhantomData;
use std::ops::Index;

use crate::Idx;

#[derive(Debug, Clone, PartialEq, Eq)]
pub struct ArenaMap<K, V> {
    data: Vec<Option<V>>,
    of: PhantomData<K>,
}

impl<K, V> ArenaMap<K, V> {
    pub const fn new() -> Self {
        ArenaMap { data: Vec::new(), of: PhantomData }
    }

    pub fn shrink_to_fit(&mut self) {
        self.data.shrink_to_fit();
    }
}

impl<T, V> ArenaMap<Idx<T>, V> {
    pub fn insert(&mut self, idx: Idx<T>, value: V) -> Option<V> {
        let number = idx.number();
        if self.data.len() <= number {
            self.data.resize_with(number + 1, || None);
        }
        self.data[number].replace(value)
    }

    pub fn get(&self, idx: Idx<T>) -> Option<&V> {
        self.data.get(idx.number()).and_then(Option::as_ref)
    }

    pub fn contains_idx(&self, idx: Idx<T>) -> bool {
        self.get(idx).is_some()
    }

    pub fn iter(&self) -> impl Iterator<Item = (Idx<T>, &V)> {
        let present = |(number, value): (usize, &'_ Option<V>)| value.as_ref().map(|_| number);
        let numbers: Vec<usize> = self.data.iter().enumerate().filter_map(present).collect();
        numbers
            .into_iter()
            .map(|number| (Idx::from_number(number), self.data[number].as_ref().expect("present")))
    }
}

impl<T, V> Index<Idx<T>> for ArenaMap<Idx<T>, V> {
    type Output = V;

    fn index(&self, idx: Idx<T>) -> &V {
        self.get(idx).expect("no value at this index")
    }
}

impl<T, V> FromIterator<(Idx<T>, V)> for ArenaMap<Idx<T>, V> {
    fn from_iter<I: IntoIterator<Item = (Idx<T>, V)>>(items: I) -> Self {
        let mut map = ArenaMap::new();
        for (idx, value) in items {
            map.insert(idx, value);
        }
        map
    }
}
