//! Stands in for the crate smallvec: a plain `Vec` under its name, without the inline storage.

use std::ops::{Deref, DerefMut};

pub trait Array {
    type Item;
}

impl<T, const N: usize> Array for [T; N] {
    type Item = T;
}

#[derive(Clone, Debug)]
pub struct SmallVec<A: Array>(Vec<A::Item>);

impl<A: Array> SmallVec<A> {
    #[allow(clippy::new_without_default)]
    pub fn new() -> Self {
        Self(Vec::new())
    }

    pub fn from_slice(items: &[A::Item]) -> Self
    where
        A::Item: Clone,
    {
        Self(items.to_vec())
    }
}

impl<A: Array> Deref for SmallVec<A> {
    type Target = Vec<A::Item>;

    fn deref(&self) -> &Vec<A::Item> {
        &self.0
    }
}

impl<A: Array> DerefMut for SmallVec<A> {
    fn deref_mut(&mut self) -> &mut Vec<A::Item> {
        &mut self.0
    }
}
