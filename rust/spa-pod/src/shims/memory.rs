//! Growth that answers want of memory in place of ending the process.
use super::bytes::Bytes;
use alloc::string::String;
use alloc::vec::Vec;
use core::fmt;

/// A growth was refused.
#[derive(Clone, Copy, Debug, PartialEq, Eq)]
pub struct AllocError;

impl fmt::Display for AllocError {
    fn fmt(&self, f: &mut fmt::Formatter<'_>) -> fmt::Result {
        f.write_str("out of memory")
    }
}

impl core::error::Error for AllocError {}

/// A growth was refused, with what was to be stored.
#[derive(Debug)]
pub struct AllocFailed<T> {
    /// What was to be stored.
    pub value: T,
}

impl<T> fmt::Display for AllocFailed<T> {
    fn fmt(&self, f: &mut fmt::Formatter<'_>) -> fmt::Result {
        f.write_str("out of memory")
    }
}

impl<T: fmt::Debug> core::error::Error for AllocFailed<T> {}

impl<T> From<AllocFailed<T>> for AllocError {
    fn from(_: AllocFailed<T>) -> AllocError {
        AllocError
    }
}

/// A copy that may be refused for want of memory.
pub trait TryClone: Sized {
    /// The copy.
    ///
    /// # Errors
    /// Want of memory.
    fn try_clone(&self) -> Result<Self, AllocError>;
}

impl TryClone for String {
    fn try_clone(&self) -> Result<String, AllocError> {
        String::try_from_str(self)
    }
}

/// Growth of a vector. Each call asks for memory first, and leaves the vector as it was where that is refused.
#[allow(clippy::missing_errors_doc)]
pub trait VecRoom<T>: Sized {
    /// An empty vector with room for so many.
    fn with_room(count: usize) -> Result<Self, AllocError>;
    /// Asks for room for so many more.
    fn make_room(&mut self, more: usize) -> Result<(), AllocError>;
    /// Puts an element at the end, for which there is room.
    fn push_reserved(&mut self, x: T);
    /// Puts an element at the end.
    fn try_push(&mut self, x: T) -> Result<(), AllocFailed<T>>;
    /// Puts copies of these at the end.
    fn try_extend_from_slice(&mut self, xs: &[T]) -> Result<(), AllocError>
    where
        T: Copy;
    /// Cuts to this length, or fills up to it with copies.
    fn try_resize(&mut self, len: usize, x: T) -> Result<(), AllocError>
    where
        T: Copy;
    /// Copies of these.
    #[inline(always)]
    fn try_from_slice(xs: &[T]) -> Result<Self, AllocError>
    where
        T: Copy,
    {
        let mut copy = Self::with_room(xs.len())?;
        copy.try_extend_from_slice(xs)?;
        Ok(copy)
    }
    /// The elements of an array.
    fn try_from_array<const N: usize>(xs: [T; N]) -> Result<Self, AllocError>;
}

impl<T> VecRoom<T> for Vec<T> {
    #[inline(always)]
    fn with_room(count: usize) -> Result<Vec<T>, AllocError> {
        let mut made = Vec::new();
        match made.try_reserve_exact(count) {
            Ok(()) => Ok(made),
            Err(_) => Err(AllocError),
        }
    }

    /// The first room is what is asked for, and not Rust's least of four elements: who makes room has counted what comes.
    #[inline(always)]
    fn make_room(&mut self, more: usize) -> Result<(), AllocError> {
        let answer = if self.capacity() == 0 { self.try_reserve_exact(more) } else { self.try_reserve(more) };
        answer.map_err(|_| AllocError)
    }

    /// Without the growth of Rust's `push`, for which an element would be put together elsewhere, and copied.
    #[inline(always)]
    fn push_reserved(&mut self, x: T) {
        if self.len() == self.capacity() {
            core::mem::forget(x);
            unreachable!("there is room for an element");
        }
        self.push(x);
    }

    #[inline(always)]
    fn try_push(&mut self, x: T) -> Result<(), AllocFailed<T>> {
        if self.len() == self.capacity() && self.try_reserve(1).is_err() {
            return Err(AllocFailed { value: x });
        }
        self.push(x);
        Ok(())
    }

    #[inline(always)]
    fn try_extend_from_slice(&mut self, xs: &[T]) -> Result<(), AllocError>
    where
        T: Copy,
    {
        self.try_reserve(xs.len()).map_err(|_| AllocError)?;
        self.extend_from_slice(xs);
        Ok(())
    }

    fn try_resize(&mut self, len: usize, x: T) -> Result<(), AllocError>
    where
        T: Copy,
    {
        self.make_room(len.saturating_sub(self.len()))?;
        self.resize(len, x);
        Ok(())
    }

    fn try_from_array<const N: usize>(xs: [T; N]) -> Result<Vec<T>, AllocError> {
        let mut made = Vec::with_room(N)?;
        made.extend(xs);
        Ok(made)
    }
}

/// Text that may be refused memory.
pub trait Text: Sized {
    /// A copy of this text.
    fn try_from_str(text: &str) -> Result<Self, AllocError>;
}

impl Text for String {
    #[inline(always)]
    fn try_from_str(text: &str) -> Result<String, AllocError> {
        let mut made = String::new();
        match made.try_reserve_exact(text.len()) {
            Ok(()) => {
                made.push_str(text);
                Ok(made)
            }
            Err(_) => Err(AllocError),
        }
    }
}

/// `text_of` of a string's body, and a copy of the text. The bytes are copied before they are checked: without link-time optimization Rust makes a
/// vector's room in fewer instructions than a text's. None: the body isn't that of a text.
///
/// # Errors
/// Want of memory for the copy.
#[inline(always)]
pub fn try_text_of(body: &[u8]) -> Result<Option<String>, AllocError> {
    let Some((0, text)) = body.split_last() else {
        return Ok(None);
    };
    if text.has_nul() {
        return Ok(None);
    }
    let mut copy = Vec::<u8>::new();
    match copy.try_reserve_exact(text.len()) {
        Ok(()) => {
            copy.extend_from_slice(text);
            Ok(String::from_utf8(copy).ok())
        }
        Err(_) => Err(AllocError),
    }
}

/// Iterators gathered in a vector.
pub trait ToVec<T> {
    /// All in a vector.
    fn try_to_vec(self) -> Result<Vec<T>, AllocError>;
}

impl<T, I: Iterator<Item = T>> ToVec<T> for I {
    fn try_to_vec(mut self) -> Result<Vec<T>, AllocError> {
        let least = self.size_hint().0;
        let mut made = Vec::with_room(least)?;
        // There is room for these, so that `extend` asks for no memory.
        made.extend(self.by_ref().take(least));
        for x in self {
            made.try_push(x)?;
        }
        Ok(made)
    }
}

/// A vector of these elements, or want of memory.
#[doc(hidden)]
#[macro_export]
macro_rules! try_vec {
    ($x:expr; $count:expr) => {{
        let mut made = $crate::macros::Vec::new();
        match $crate::macros::VecRoom::try_resize(&mut made, $count, $x) {
            Ok(()) => Ok(made),
            Err(error) => Err(error),
        }
    }};
    ($($x:expr),* $(,)?) => {
        <$crate::macros::Vec<_> as $crate::macros::VecRoom<_>>::try_from_array([$($x),*])
    };
}

/// A text of this form, or want of memory.
#[cfg(feature = "parts")]
#[doc(hidden)]
#[macro_export]
macro_rules! try_format {
    ($($t:tt)*) => {
        $crate::shims::memory::more::text_of(format_args!($($t)*))
    };
}

/// What text with names, the programs and the tests call beside the above.
#[cfg(any(feature = "text", feature = "parts"))]
#[allow(dead_code)]
pub mod more {
    use super::{AllocError, AllocFailed, String, TryClone, Vec, VecRoom};
    use core::fmt;

    /// Growth of a text.
    pub trait StringRoom {
        /// Puts a text at the end.
        fn try_push_str(&mut self, text: &str) -> Result<(), AllocError>;
        /// Puts a letter at the end.
        fn try_push(&mut self, letter: char) -> Result<(), AllocError>;
        /// What `write!` calls.
        fn write_fmt(&mut self, words: fmt::Arguments<'_>) -> Result<(), AllocError>;
    }

    impl StringRoom for String {
        fn try_push_str(&mut self, text: &str) -> Result<(), AllocError> {
            self.try_reserve(text.len()).map_err(|_| AllocError)?;
            self.push_str(text);
            Ok(())
        }

        fn try_push(&mut self, letter: char) -> Result<(), AllocError> {
            self.try_push_str(letter.encode_utf8(&mut [0; 4]))
        }

        fn write_fmt(&mut self, words: fmt::Arguments<'_>) -> Result<(), AllocError> {
            fmt::write(&mut Growing(self), words).map_err(|_| AllocError)
        }
    }

    /// A text that asks for memory first.
    struct Growing<'a>(&'a mut String);

    impl fmt::Write for Growing<'_> {
        fn write_str(&mut self, text: &str) -> fmt::Result {
            self.0.try_push_str(text).map_err(|_| fmt::Error)
        }
    }

    /// What these words say.
    pub fn text_of(words: fmt::Arguments<'_>) -> Result<String, AllocError> {
        let mut text = String::new();
        text.write_fmt(words)?;
        Ok(text)
    }

    /// Copies of a text.
    pub trait Copies {
        /// So many copies, one behind another.
        fn try_repeat(&self, count: usize) -> Result<String, AllocError>;
        /// A copy with one text in place of another.
        fn try_replace(&self, old: &str, new: &str) -> Result<String, AllocError>;
    }

    impl Copies for str {
        fn try_repeat(&self, count: usize) -> Result<String, AllocError> {
            let mut text = String::new();
            text.try_reserve(self.len().saturating_mul(count)).map_err(|_| AllocError)?;
            (0..count).for_each(|_| text.push_str(self));
            Ok(text)
        }

        fn try_replace(&self, old: &str, new: &str) -> Result<String, AllocError> {
            let mut text = String::new();
            let mut parts = self.split(old);
            text.try_push_str(parts.next().unwrap_or_default())?;
            for part in parts {
                text.try_push_str(new)?;
                text.try_push_str(part)?;
            }
            Ok(text)
        }
    }

    /// Room for no more than is asked for.
    pub trait Exactly {
        /// Asks for room for so many more.
        fn make_room_exact(&mut self, more: usize) -> Result<(), AllocError>;
    }

    impl<T> Exactly for Vec<T> {
        fn make_room_exact(&mut self, more: usize) -> Result<(), AllocError> {
            self.try_reserve_exact(more).map_err(|_| AllocError)
        }
    }

    /// A vector in two, and two in one.
    pub trait SplitOff<T>: Sized {
        /// Moves all of the other to the end.
        fn try_append(&mut self, other: &mut Vec<T>) -> Result<(), AllocError>;
        /// The elements from this place on.
        fn try_split_off(&mut self, at: usize) -> Result<Vec<T>, AllocError>;
    }

    impl<T> SplitOff<T> for Vec<T> {
        fn try_append(&mut self, other: &mut Vec<T>) -> Result<(), AllocError> {
            self.make_room(other.len())?;
            self.append(other);
            Ok(())
        }

        fn try_split_off(&mut self, at: usize) -> Result<Vec<T>, AllocError> {
            let mut behind = Vec::with_room(self.len() - at)?;
            behind.extend(self.drain(at..));
            Ok(behind)
        }
    }

    impl<T: TryClone> TryClone for Vec<T> {
        fn try_clone(&self) -> Result<Vec<T>, AllocError> {
            let mut copy = Vec::with_room(self.len())?;
            for x in self {
                copy.try_push(x.try_clone()?).map_err(|_: AllocFailed<T>| AllocError)?;
            }
            Ok(copy)
        }
    }

    /// Slices copied into a vector.
    pub trait SliceToVec<T> {
        /// Copies of all in a vector.
        fn try_to_vec(&self) -> Result<Vec<T>, AllocError>;
    }

    impl<T: Copy> SliceToVec<T> for [T] {
        fn try_to_vec(&self) -> Result<Vec<T>, AllocError> {
            Vec::try_from_slice(self)
        }
    }

    #[cfg(feature = "std")]
    impl From<AllocError> for std::io::Error {
        fn from(_: AllocError) -> std::io::Error {
            std::io::Error::from(std::io::ErrorKind::OutOfMemory)
        }
    }

    #[cfg(feature = "std")]
    impl<T> From<AllocFailed<T>> for std::io::Error {
        fn from(_: AllocFailed<T>) -> std::io::Error {
            std::io::Error::from(AllocError)
        }
    }
}

#[cfg(test)]
mod tests {
    use super::{AllocError, String, try_text_of};
    use crate::parts::spa_bodies::text_of;

    #[test]
    fn a_copied_text_is_the_one_that_is_borrowed() {
        let text = "a text of more than sixteen letters, \u{fc}\u{266b}\u{1f50a}\0".as_bytes();
        for len in 0..=text.len() {
            // Cut anywhere, in a letter too; with its NUL, with another byte in its place, and with a NUL inside.
            let mut body = text[..len].to_vec();
            for last in [1, 0, 0] {
                let copied: Result<Option<String>, AllocError> = try_text_of(&body);
                assert_eq!(copied.as_ref().map(|it| it.as_deref()), Ok(text_of(&body)), "{body:?}");
                body.push(last);
            }
        }
        assert_eq!(try_text_of(text).map(|it| it.map(|it| it.len())), Ok(Some(text.len() - 1)));
        assert_eq!(try_text_of(b"a\0b\0"), Ok(None));
    }
}
