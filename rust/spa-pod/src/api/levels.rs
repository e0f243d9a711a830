//! Reading under a limit of nesting: what the plain calls do.
use crate::parts::spa_bytes::HEADER_LEN;
use crate::pod::deserialize::{DeserializeError, DeserializeSuccess, ExactDeserialize, PodDeserialize, PodDeserializer};
use crate::pod::{Value, discard};

/// How many structs and objects may stand in one another in what the plain calls read. PipeWire's own nest in fewer than ten. In a thread of
/// 2 MiB a value of so many levels is dropped, compared and printed also without optimization.
pub const MOST_LEVELS: u32 = 1000;

/// Whether at most so many structs and objects stand in one another in a value. It calls itself for those alone, at most so many times in one
/// another.
fn value_nests_within(value: &Value, levels: u32) -> bool {
    let is_within = |inner: &Value| !matches!(inner, Value::Struct(_) | Value::Object(_)) || value_nests_within(inner, levels - 1);
    match value {
        Value::Struct(members) => levels > 0 && members.iter().all(is_within),
        Value::Object(object) => levels > 0 && object.properties.iter().all(|property| is_within(&property.value)),
        _ => true,
    }
}

/// The value that was read from so many bytes. None: more structs and objects stand in one another in it, and it was dropped by a loop.
pub(crate) fn within(levels: u32, extent: usize, value: Value) -> Option<Value> {
    // Each level has a header at least.
    if extent > HEADER_LEN.saturating_mul(levels as usize) && !value_nests_within(&value, levels) {
        discard(value);
        return None;
    }
    Some(value)
}

/// What a read answers: the bytes that are left, and the value.
type Answer<'de> = Result<(&'de [u8], Value), DeserializeError<&'de [u8]>>;

/// What an unbounded read answered, where the value nests within so many levels.
fn bounded<'de>(levels: u32, input: &[u8], read: Answer<'de>) -> Answer<'de> {
    let (rest, value) = read?;
    match within(levels, input.len() - rest.len(), value) {
        Some(value) => Ok((rest, value)),
        None => Err(DeserializeError::TooDeep),
    }
}

/// A value of any nesting depth, of which a `Held` is made at once.
#[derive(Debug)]
pub struct Unbounded(pub(crate) Value);

impl<'de> PodDeserialize<'de> for Unbounded {
    fn deserialize(deserializer: PodDeserializer<'de>) -> Result<(Unbounded, DeserializeSuccess<'de>), DeserializeError<&'de [u8]>> {
        let (value, success) = deserializer.deserialize_any_unbounded()?;
        Ok((Unbounded(value), success))
    }
}

impl ExactDeserialize<'_> for Unbounded {}

impl<'de> PodDeserializer<'de> {
    /// Reads the pod at the front of the input, of any type, and answers the bytes that follow it. At most
    /// [`MOST_LEVELS`](crate::pod::MOST_LEVELS) structs and objects may stand in one another.
    ///
    /// # Errors
    /// [`TooDeep`](DeserializeError::TooDeep) where more do; else as [`deserialize_any_from_unbounded`](Self::deserialize_any_from_unbounded),
    /// which takes any nesting depth.
    pub fn deserialize_any_from(input: &'de [u8]) -> Result<(&'de [u8], Value), DeserializeError<&'de [u8]>> {
        PodDeserializer::deserialize_any_within(MOST_LEVELS, input)
    }

    /// Reads the value that the front of the input conveys in the lenient reading, and answers the bytes that follow the front. At most
    /// [`MOST_LEVELS`](crate::pod::MOST_LEVELS) structs and objects may stand in one another in the value.
    ///
    /// # Errors
    /// [`TooDeep`](DeserializeError::TooDeep) where more do; else as
    /// [`deserialize_any_leniently_from_unbounded`](Self::deserialize_any_leniently_from_unbounded), which takes any nesting depth.
    pub fn deserialize_any_leniently_from(input: &'de [u8]) -> Result<(&'de [u8], Value), DeserializeError<&'de [u8]>> {
        bounded(MOST_LEVELS, input, PodDeserializer::deserialize_any_leniently_from_unbounded(input))
    }

    /// Reads as [`deserialize_any_from`](Self::deserialize_any_from) does, and counts the pod headers that are opened on the way, as
    /// [`deserialize_any_counted_unbounded`](Self::deserialize_any_counted_unbounded) does, which takes any nesting depth.
    pub fn deserialize_any_counted(input: &'de [u8]) -> (Answer<'de>, u64) {
        let (read, opened) = PodDeserializer::deserialize_any_counted_unbounded(input);
        (bounded(MOST_LEVELS, input, read), opened)
    }

    /// Reads the pod at the front of the remaining bytes, of any type.
    ///
    /// # Errors
    /// Those of [`deserialize_any_from`](Self::deserialize_any_from).
    pub fn deserialize_any(self) -> Result<(Value, DeserializeSuccess<'de>), DeserializeError<&'de [u8]>> {
        let (rest, value) = PodDeserializer::deserialize_any_from(self.input)?;
        Ok((value, self.after(rest)))
    }

    /// Reads the pod at the front, in which at most so many structs and objects may stand in one another: an Int nests in 0 levels,
    /// a struct of Ints in 1. The answer is what is left of the bytes, and the value. The call calls itself for each level.
    ///
    /// ```
    /// use spa_pod::pod::deserialize::{DeserializeError, PodDeserializer};
    /// use spa_pod::pod::Value;
    ///
    /// let inner = Value::Struct(vec![Value::Int(1)]);
    /// let bytes = spa_pod::write(&Value::Struct(vec![inner]))?;
    /// assert!(PodDeserializer::deserialize_any_within(2, &bytes).is_ok());
    /// assert_eq!(PodDeserializer::deserialize_any_within(1, &bytes), Err(DeserializeError::TooDeep));
    /// # Ok::<(), Box<dyn std::error::Error>>(())
    /// ```
    ///
    /// # Errors
    /// [`TooDeep`](DeserializeError::TooDeep) where more do; else as [`deserialize_any_from_unbounded`](Self::deserialize_any_from_unbounded).
    pub fn deserialize_any_within(levels: u32, input: &'de [u8]) -> Result<(&'de [u8], Value), DeserializeError<&'de [u8]>> {
        bounded(levels, input, PodDeserializer::deserialize_any_from_unbounded(input))
    }
}

#[cfg(all(test, feature = "std"))]
mod tests {
    use crate::pod::{
        Value, is_canonical, nests_within, rewrite, rewrite_all, rewrite_all_leniently, rewrite_in_place, rewrite_in_place_leniently,
        rewrite_into_leniently,
    };
    use alloc::format;
    use alloc::vec;
    use alloc::vec::Vec;
    use std::thread::Builder;

    fn nested(levels: u32) -> Value {
        let mut value = Value::Int(1);
        for _ in 0..levels {
            value = Value::Struct(Vec::from([value]));
        }
        value
    }

    #[test]
    fn a_thread_of_2_mib_drops_compares_and_prints_1000_levels() {
        let thread = Builder::new().stack_size(2 << 20).spawn(|| {
            let (one, other) = (nested(1000), nested(1000));
            assert!(one == other);
            assert_eq!(format!("{one:?}").matches("Struct(").count(), 1000);
        });
        thread.unwrap().join().unwrap();
    }

    /// The header of a pod, or a key and flags.
    fn words(first: usize, second: u32) -> Vec<u8> {
        [(first as u32).to_le_bytes(), second.to_le_bytes()].concat()
    }

    /// 1000 structs, or objects of two properties, in one another, each of which ends with this pod; the innermost holds it twice.
    fn nest(in_objects: bool, pod: &[u8]) -> Vec<u8> {
        let mut inner = pod.to_vec();
        for _ in 0..1000 {
            let members = [inner.as_slice(), pod];
            let body = if in_objects { [words(5, 3), words(1, 0), members[0].to_vec(), words(2, 0), members[1].to_vec()].concat() } else { members.concat() };
            inner = [words(body.len(), if in_objects { 15 } else { 14 }), body].concat();
        }
        inner
    }

    /// Rewrites pods by each call, and compares what it makes, and what is answered of the pods before.
    fn rewrite_by_each_call(pods: &[u8], wanted: &[u8]) {
        assert!(rewrite(pods).is_ok_and(|(rest, made)| rest.is_empty() && made == wanted));
        assert!(is_canonical(pods).is_ok_and(|answer| answer == (pods == wanted)));
        assert!(nests_within(pods, 1000) && !nests_within(pods, 999));
        for call in [rewrite_all, rewrite_all_leniently] {
            let mut out = Vec::new();
            assert!(call(pods, &mut out).is_ok() && out == wanted);
        }
        for call in [|bytes: &mut [u8]| rewrite_in_place(bytes).ok(), |bytes: &mut [u8]| rewrite_in_place_leniently(bytes).ok()] {
            let mut bytes = pods.to_vec();
            assert!(call(&mut bytes).is_some_and(|len| bytes[..len] == *wanted));
        }
        let mut out = vec![0; pods.len()];
        assert!(rewrite_into_leniently(pods, &mut out).is_ok_and(|len| out[..len] == *wanted));
    }

    #[test]
    fn a_thread_of_2_mib_rewrites_1000_levels() {
        // An Int, the same with other padding than zeros; a None choice of an Int, the same with a value that it doesn't take.
        let int = [words(4, 4), words(1, 0)].concat();
        let padded = [words(4, 4), words(1, 9)].concat();
        let choice = [words(20, 19), words(0, 0), words(4, 4), words(7, 0)].concat();
        let longer = [words(32, 19), words(0, 0), words(4, 4), words(7, 8), words(9, 10)].concat();
        let rows = [(int.clone(), int.clone()), (padded, int), (choice.clone(), choice.clone()), (longer, choice)];
        let thread = Builder::new().stack_size(2 << 20).spawn(move || {
            for (pod, wanted) in rows {
                for in_objects in [false, true] {
                    rewrite_by_each_call(&nest(in_objects, &pod), &nest(in_objects, &wanted));
                }
            }
        });
        thread.unwrap().join().unwrap();
    }
}
