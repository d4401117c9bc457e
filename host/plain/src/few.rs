//! A short list by value.

/// At most `N` items, by value and without allocation.
///
/// Items are options rather than a counted array: an empty list then costs
/// only its marks, which keeps a quiet tick's answer cheap.
#[derive(Clone, Copy, Debug, PartialEq, Eq)]
pub struct Few<T, const N: usize> {
    items: [Option<T>; N],
}

impl<T: Copy, const N: usize> Few<T, N> {
    /// The empty list.
    pub const fn none() -> Self {
        Few { items: [None; N] }
    }

    /// Adds an item at the end; a full list stays as it is.
    pub fn push(&mut self, item: T) {
        if let Some(free) = self.items.iter_mut().find(|place| place.is_none()) {
            *free = Some(item);
        }
    }

    /// The items in order.
    pub fn iter(&self) -> impl Iterator<Item = &T> {
        self.items.iter().flatten()
    }

    /// Whether there are none.
    pub fn is_empty(&self) -> bool {
        self.items.first().is_none_or(Option::is_none)
    }
}

impl<T: Copy, const N: usize> Default for Few<T, N> {
    fn default() -> Self {
        Few::none()
    }
}

#[cfg(test)]
mod tests {
    use super::*;

    #[test]
    fn keeps_order_and_stops_when_full() {
        let mut few: Few<u8, 2> = Few::none();
        assert!(few.is_empty());
        for item in [5, 6, 7] {
            few.push(item);
        }
        assert_eq!(few.iter().copied().collect::<Vec<_>>(), [5, 6]);
        assert!(!few.is_empty());
    }
}
