//! A `VecDeque` that counts what is taken from it (feature `count`).
use std::cell::Cell;

thread_local! {
    /// Items taken from the list that was made last.
    pub static TAKEN: Cell<u64> = const { Cell::new(0) };
}

pub struct VecDeque<T>(std::collections::VecDeque<T>);

impl<T> FromIterator<T> for VecDeque<T> {
    fn from_iter<I: IntoIterator<Item = T>>(items: I) -> Self {
        TAKEN.set(0);
        Self(items.into_iter().collect())
    }
}

impl<T> VecDeque<T> {
    pub fn pop_front(&mut self) -> Option<T> {
        let item = self.0.pop_front();
        TAKEN.set(TAKEN.get() + u64::from(item.is_some()));
        item
    }
    pub fn push_back(&mut self, item: T) {
        self.0.push_back(item);
    }
}
