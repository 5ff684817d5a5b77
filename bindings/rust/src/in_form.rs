//! Lists that are shown or written in another form.

use std::fmt;

/// The elements of a list in another form. They are made one by one, so there is no allocation.
pub(crate) struct InForm<'a, T, F>(pub(crate) &'a [T], pub(crate) F);

impl<T, U: fmt::Debug, F: Fn(&T) -> U> fmt::Debug for InForm<'_, T, F> {
    fn fmt(&self, f: &mut fmt::Formatter<'_>) -> fmt::Result {
        f.debug_list().entries(self.0.iter().map(&self.1)).finish()
    }
}

#[cfg(feature = "serde")]
impl<T, U: serde::Serialize, F: Fn(&T) -> U> serde::Serialize for InForm<'_, T, F> {
    fn serialize<S: serde::Serializer>(&self, serializer: S) -> Result<S::Ok, S::Error> {
        serializer.collect_seq(self.0.iter().map(&self.1))
    }
}
