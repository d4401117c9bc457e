//! Short lists by value.

use core::fmt;
use core::ops::Deref;

/// A list of `MOST` items at most, by value and without allocation. It is read
/// as a slice.
#[derive(Clone, Copy)]
pub struct UpTo<T, const MOST: usize> {
    items: [T; MOST],
    number: usize,
}

impl<T: Copy + Default, const MOST: usize> UpTo<T, MOST> {
    /// These items; `None` where there are more than `MOST`.
    pub fn of(items: &[T]) -> Option<Self> {
        let mut list = UpTo::default();
        list.items.get_mut(..items.len())?.copy_from_slice(items);
        list.number = items.len();
        Some(list)
    }

    /// The first `number` of `MOST` items.
    pub(crate) fn first(number: usize, items: [T; MOST]) -> Option<Self> {
        UpTo::of(items.get(..number)?)
    }
}

impl<T: Default, const MOST: usize> Default for UpTo<T, MOST> {
    /// The empty list.
    fn default() -> Self {
        UpTo {
            items: core::array::from_fn(|_| T::default()),
            number: 0,
        }
    }
}

/// An array that is too long isn't compiled.
impl<T: Copy + Default, const N: usize, const MOST: usize> From<[T; N]> for UpTo<T, MOST> {
    fn from(items: [T; N]) -> Self {
        const { assert!(N <= MOST, "more items than the list has room for") };
        let mut list = UpTo::default();
        list.items[..N].copy_from_slice(&items);
        list.number = N;
        list
    }
}

impl<T, const MOST: usize> Deref for UpTo<T, MOST> {
    type Target = [T];

    fn deref(&self) -> &[T] {
        &self.items[..self.number]
    }
}

impl<T: PartialEq, const MOST: usize> PartialEq for UpTo<T, MOST> {
    fn eq(&self, other: &Self) -> bool {
        **self == **other
    }
}

impl<T: Eq, const MOST: usize> Eq for UpTo<T, MOST> {}

impl<T: fmt::Debug, const MOST: usize> fmt::Debug for UpTo<T, MOST> {
    fn fmt(&self, f: &mut fmt::Formatter<'_>) -> fmt::Result {
        (**self).fmt(f)
    }
}
