//! Stand-in for interned slices: equal ones are kept once, for as long as the program runs.

macro_rules! interned_slice {
    ($storage:ident, $name:ident, $stored:ident, $field:ident, $item:ty, $stored_item:ty) => {
        #[derive(Debug, Copy, Clone, PartialEq, Eq, Hash)]
        pub struct $name<'db> {
            items: &'static [$item],
            of: std::marker::PhantomData<&'db ()>,
        }

        #[derive(Debug, Clone, PartialEq, Eq, Hash)]
        pub struct $stored {
            items: &'static [$item],
        }

        impl<'db> $name<'db> {
            pub fn new_from_iter(items: impl IntoIterator<Item = $item>) -> Self {
                let items: Vec<$item> = items.into_iter().collect();
                Self::new_from_slice(&items)
            }

            pub fn new_from_slice(items: &[$item]) -> Self {
                thread_local! {
                    static KEPT: std::cell::RefCell<rustc_hash::FxHashSet<&'static [$item]>> =
                        std::cell::RefCell::default();
                }
                crate::trace::projected(items.len());
                let kept = KEPT.with_borrow_mut(|kept| match kept.get(items) {
                    Some(&found) => found,
                    None => {
                        let new: &'static [$item] = Box::leak(items.into());
                        kept.insert(new);
                        new
                    }
                });
                $name { items: kept, of: std::marker::PhantomData }
            }

            pub fn as_slice(&self) -> &'static [$item] {
                self.items
            }

            pub fn store(&self) -> $stored {
                $stored { items: self.items }
            }
        }

        impl $stored {
            pub fn as_ref<'db>(&self) -> $name<'db> {
                $name { items: self.items, of: std::marker::PhantomData }
            }
        }
    };
}

pub(crate) use interned_slice;
