//! Stands in for arrayvec: those methods of its `ArrayVec` that `spa-pod` and its tests name, as arrayvec declares them, for elements with a default.
//! No line is arrayvec's.
#![no_std]
use core::ops::{Deref, DerefMut};

#[derive(Debug)]
pub struct ArrayVec<T, const CAP: usize> {
    room: [T; CAP],
    len: usize,
}

#[derive(Debug)]
pub struct CapacityError;

impl<T: Copy + Default, const CAP: usize> ArrayVec<T, CAP> {
    pub fn new() -> Self {
        ArrayVec { room: [T::default(); CAP], len: 0 }
    }
}

impl<T, const CAP: usize> ArrayVec<T, CAP> {
    pub fn as_slice(&self) -> &[T] {
        self
    }

    pub fn remaining_capacity(&self) -> usize {
        CAP - self.len
    }

    pub fn try_extend_from_slice(&mut self, more: &[T]) -> Result<(), CapacityError>
    where
        T: Copy,
    {
        let end = self.len + more.len();
        self.room.get_mut(self.len..end).ok_or(CapacityError)?.copy_from_slice(more);
        self.len = end;
        Ok(())
    }
}

impl<T, const CAP: usize> Deref for ArrayVec<T, CAP> {
    type Target = [T];

    fn deref(&self) -> &[T] {
        &self.room[..self.len]
    }
}

impl<T, const CAP: usize> DerefMut for ArrayVec<T, CAP> {
    fn deref_mut(&mut self) -> &mut [T] {
        &mut self.room[..self.len]
    }
}
