//! A refusal that outlives the bytes, and what thiserror's derive writes.
use crate::pod::deserialize::{DeserializeError, Fault};
use crate::utils::result;
use core::error::Error;
use core::fmt::{Display, Formatter, Result};

impl DeserializeError<&[u8]> {
    /// This refusal, with the byte of `input` at which the fault stands in place of the bytes from there on: so that it outlives them.
    /// `input` is what was read.
    ///
    /// ```
    /// use spa_pod::pod::deserialize::PodDeserializer;
    ///
    /// fn count(bytes: &[u8]) -> Result<usize, Box<dyn std::error::Error>> {
    ///     let (rest, _) = PodDeserializer::deserialize_any_from(bytes).map_err(|error| error.placed_in(bytes))?;
    ///     Ok(bytes.len() - rest.len())
    /// }
    /// assert_eq!(count(&[0, 0, 0, 0, 1, 0, 0, 0]).unwrap(), 8);
    /// assert!(count(&[9, 0, 0, 0]).is_err());
    /// ```
    #[must_use]
    pub fn placed_in(self, input: &[u8]) -> DeserializeError<usize> {
        match self {
            DeserializeError::Nom(fault) => DeserializeError::Nom(Fault {
                input: offset_in(input, fault.input),
                kind: fault.kind,
            }),
            DeserializeError::UnsupportedType => DeserializeError::UnsupportedType,
            DeserializeError::InvalidType => DeserializeError::InvalidType,
            DeserializeError::PropertyMissing => DeserializeError::PropertyMissing,
            DeserializeError::PropertyWrongKey(key) => DeserializeError::PropertyWrongKey(key),
            DeserializeError::InvalidChoiceType => DeserializeError::InvalidChoiceType,
            DeserializeError::MissingChoiceValues => DeserializeError::MissingChoiceValues,
            DeserializeError::WrongSize => DeserializeError::WrongSize,
            DeserializeError::UnreadMembers => DeserializeError::UnreadMembers,
            DeserializeError::NoElementLeft => DeserializeError::NoElementLeft,
            DeserializeError::FailedReader => DeserializeError::FailedReader,
            DeserializeError::OutOfMemory => DeserializeError::OutOfMemory,
            DeserializeError::TooDeep => DeserializeError::TooDeep,
        }
    }
}

/// At which byte of `input` the bytes `place`, a part of it, begin. What is left inside of a container ends before the input does, so
/// lengths don't tell. Where `place` is no part of it, the answer is the input's length at most.
pub(crate) fn offset_in(input: &[u8], place: &[u8]) -> usize {
    let before = (place.as_ptr() as usize).wrapping_sub(input.as_ptr() as usize);
    before.min(input.len())
}

impl Display for result::Error {
    fn fmt(&self, f: &mut Formatter<'_>) -> Result {
        Display::fmt(&self.errno(), f)
    }
}

impl Error for result::Error {}
