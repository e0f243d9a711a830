//! `Clone` and `Default` of the types whose copies may be refused for want of memory: `clone` panics then, as Rust's own does end
//! the process; the proved calls `try_clone` answer an error.
use crate::pod::{ChoiceValue, Object, Property, Value, ValueArray};
use crate::shims::memory::{AllocError, TryClone};
use crate::utils::dict::CIter;
use crate::utils::{Choice, ChoiceEnum, SpaTypes};

/// What was made, where there is memory.
pub fn with_memory<T, E>(made: Result<T, E>) -> T {
    made.unwrap_or_else(|_| panic!("out of memory"))
}

macro_rules! clone_by_try {
    ($($name:ty),*) => { $(
        /// By a loop, however deep the value is nested.
        ///
        /// # Panics
        /// Where memory is refused.
        impl Clone for $name {
            fn clone(&self) -> $name {
                with_memory(self.try_clone())
            }
        }
    )* };
}

clone_by_try!(Value, ValueArray, ChoiceValue, Object, Property);

impl<T: Copy> Clone for Choice<T> {
    fn clone(&self) -> Choice<T> {
        with_memory(self.try_clone())
    }
}

impl<T: Copy> Clone for ChoiceEnum<T> {
    fn clone(&self) -> ChoiceEnum<T> {
        with_memory(self.try_clone())
    }
}

/// The value without content.
impl Default for Value {
    fn default() -> Value {
        Value::None
    }
}

/// The type of the value without content.
impl Default for SpaTypes {
    fn default() -> SpaTypes {
        SpaTypes::None
    }
}

impl TryClone for CIter<'_> {
    fn try_clone(&self) -> Result<Self, AllocError> {
        Ok(self.clone())
    }
}
