use core::fmt;
use core::ops::{Deref, DerefMut};

/// At most N items, kept in place. It is a slice by `Deref`, and compares and prints as one.
#[derive(Clone, Copy)]
pub struct List<T, const N: usize> {
    items: [T; N],
    count: usize,
}

impl<T, const N: usize> List<T, N> {
    /// The first items of an array, all of them where it has no more.
    pub(crate) fn front(items: [T; N], count: usize) -> Self {
        List { items, count: count.min(N) }
    }

    /// No item; the places behind are filled with this one.
    pub(crate) const fn empty(filling: T) -> Self
    where
        T: Copy,
    {
        List { items: [filling; N], count: 0 }
    }

    /// All places, to be written; the list has no item until [`List::set_len`] says how many are.
    pub(crate) fn places(&mut self) -> &mut [T; N] {
        self.count = 0;
        &mut self.items
    }

    pub(crate) fn set_len(&mut self, count: usize) {
        self.count = count.min(N);
    }
}

impl<T, const N: usize> Deref for List<T, N> {
    type Target = [T];

    fn deref(&self) -> &[T] {
        &self.items[..self.count]
    }
}

impl<T, const N: usize> DerefMut for List<T, N> {
    fn deref_mut(&mut self) -> &mut [T] {
        &mut self.items[..self.count]
    }
}

impl<'a, T, const N: usize> IntoIterator for &'a List<T, N> {
    type Item = &'a T;
    type IntoIter = core::slice::Iter<'a, T>;

    fn into_iter(self) -> Self::IntoIter {
        self.iter()
    }
}

/// With another list, with an array and with a slice: what stands behind the items plays no part.
impl<T: PartialEq, S: AsRef<[T]> + ?Sized, const N: usize> PartialEq<S> for List<T, N> {
    fn eq(&self, other: &S) -> bool {
        self[..] == *other.as_ref()
    }
}

impl<T, const N: usize> AsRef<[T]> for List<T, N> {
    fn as_ref(&self) -> &[T] {
        self
    }
}

impl<T: fmt::Debug, const N: usize> fmt::Debug for List<T, N> {
    fn fmt(&self, f: &mut fmt::Formatter<'_>) -> fmt::Result {
        fmt::Debug::fmt(&self[..], f)
    }
}

#[cfg(test)]
mod tests {
    use super::*;
    use std::format;

    #[test]
    fn only_the_items_count() {
        let list = List::front([1, 2, 7], 2);
        assert!(list == List::front([1, 2, 9, 9], 2) && list == [1, 2] && list != [1, 2, 7]);
        assert_eq!((list.len(), format!("{list:?}")), (2, format!("{:?}", [1, 2])));
        assert_eq!(List::front([1], 5).len(), 1);
        let mut written = List::<u8, 4>::empty(3);
        assert_eq!(written, []);
        written.places()[1] = 5;
        assert_eq!(written, []);
        written.set_len(2);
        assert_eq!(written, [3, 5]);
        written.places();
        assert_eq!(written, []);
    }
}
