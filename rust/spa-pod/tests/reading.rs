//! Reads at once: the value and its length, and of refusals the kind and the byte, which is counted by hand in the words.
use spa_pod::pod::deserialize::{DeserializeError, ObjectOf, Optional, PodDeserialize, PodDeserializer, Required, Settled, StructOf};
use spa_pod::pod::serialize::GenError;
use spa_pod::pod::{Held, MOST_LEVELS, Value};
use spa_pod::{ReadAs, ReadError, ReadErrorKind, read, read_as, read_leniently, read_unbounded, write, write_as};
use std::error::Error;

fn bytes(words: &[u32]) -> Vec<u8> {
    words.iter().flat_map(|word| word.to_le_bytes()).collect()
}

/// The kind and the byte of a refusal.
fn place<T>(answer: Result<T, ReadError>) -> Option<(ReadErrorKind, usize)> {
    answer.err().map(|error| (error.kind, error.at))
}

/// The first program of each user: errors go on by `?`, and outlive the bytes.
fn sum(path: &str) -> Result<i32, Box<dyn Error>> {
    let bytes = if path.is_empty() { bytes(&[32, 14, 4, 4, 1, 0, 4, 4, 2, 0]) } else { std::fs::read(path)? };
    let (StructOf((one, (other, ()))), _) = read_as::<StructOf<(i32, (i32, ()))>>(&bytes)?;
    let (value, taken) = read(&bytes)?;
    assert_eq!((value, taken), (Value::Struct(vec![Value::Int(one), Value::Int(other)]), 40));
    Ok(one + other)
}

#[test]
fn errors_go_on_by_a_question_mark() {
    assert_eq!(sum("").unwrap(), 3);
    assert!(sum("there is no such file").is_err());
}

/// A struct of an Int and of a struct, which begins at byte 24, of a pod of this size and type, at 32, and of an Int; an Int is behind it.
fn inside(size: u32, type_: u32) -> Vec<u8> {
    bytes(&[56, 14, 4, 4, 5, 0, 32, 14, size, type_, 0x6161, 0, 4, 4, 1, 0, 4, 4, 7, 0])
}

#[test]
fn each_fault_has_its_byte() {
    use ReadErrorKind::{InvalidChoiceType, InvalidType, MissingChoiceValues, Short, Text, WrongSize};
    let rows = [
        (inside(3, 4), WrongSize, 32),
        (inside(2, 8), Text, 32),
        (inside(4, 77), InvalidType, 32),
        (inside(200, 9), Short, 32),
        (bytes(&[4, 4]), Short, 0),
        (vec![1, 2, 3], Short, 0),
        (bytes(&[20, 19, 5, 0, 4, 4, 1, 0]), InvalidChoiceType, 0),
        (bytes(&[20, 19, 1, 0, 4, 4, 1, 0]), MissingChoiceValues, 0),
        // An object whose second property, at byte 40, has only a key.
        (bytes(&[36, 15, 5, 3, 1, 0, 4, 4, 9, 0, 2, 0]), Short, 40),
    ];
    for (input, kind, at) in rows {
        assert_eq!(place(read(&input)), Some((kind, at)), "{input:?}");
        assert_eq!(place(read_as::<Value>(&input)), Some((kind, at)), "{input:?} by its type");
        assert_eq!(place(read_unbounded(&input)), Some((kind, at)), "{input:?} in any depth");
        let by_name = PodDeserializer::deserialize_any_from(&input).map_err(|error| ReadError::new(error, &input));
        assert_eq!(place(by_name), Some((kind, at)), "{input:?} by libspa's name");
    }
    assert_eq!(read(&inside(4, 4)).unwrap().1, 64);
    assert_eq!(read_as::<Value>(&inside(4, 4)[64..]), Ok((Value::Int(7), 16)));
}

type Both = ObjectOf<5, 3, (Required<1, Settled<i32>>, (Optional<2, String>, (Required<3, Nested>, ())))>;
type Nested = StructOf<(bool, (i64, ()))>;

/// An object of the type 5 and the id 3 of these properties.
fn object(properties: &[&[u32]]) -> Vec<u8> {
    let body = properties.concat();
    bytes(&[&[body.len() as u32 * 4 + 8, 15, 5, 3], body.as_slice()].concat())
}

const RATE: &[u32] = &[1, 0, 4, 4, 48000, 0];
const NAME: &[u32] = &[2, 0, 2, 8, 0x61, 0];
const PAIR: &[u32] = &[3, 0, 32, 14, 4, 2, 1, 0, 8, 5, 9, 0];

#[test]
fn typed_reads_name_what_is_missing_and_where() {
    use ReadErrorKind::{MissingMember, MissingProperty, OtherObject, OtherType, Short, Text, UnreadMembers, UnsupportedType, WrongSize};
    let whole = object(&[RATE, NAME, PAIR]);
    let (ObjectOf((Required(Settled(rate)), (Optional(name), (Required(StructOf((truth, (long, ())))), ())))), taken) =
        read_as::<Both>(&whole).unwrap();
    assert_eq!((rate, name.as_deref(), truth, long, taken), (48000, Some("a"), true, 9, whole.len()));
    let rows = [
        (object(&[NAME, PAIR]), MissingProperty(1), 0),
        (object(&[RATE, NAME]), MissingProperty(3), 0),
        // The first property's pod begins at byte 24, and the second one's is 24 bytes behind it.
        (object(&[RATE, &[2, 0, 2, 8, 0x6161, 0], PAIR]), Text, 48),
        (object(&[RATE, &[3, 0, 16, 14, 4, 2, 1, 0]]), MissingMember(1), 48),
        (object(&[RATE, &[3, 0, 48, 14, 4, 2, 1, 0, 8, 5, 9, 0, 4, 4, 1, 0]]), UnreadMembers, 88),
        (object(&[RATE, &[3, 0, 32, 14, 4, 4, 1, 0, 8, 5, 9, 0]]), OtherType, 56),
        (object(&[&[1, 0, 3, 4, 48000, 0], PAIR]), WrongSize, 24),
        (object(&[&[1, 0, 28, 19, 1, 0, 4, 4, 1, 1, 9, 0], PAIR]), UnsupportedType, 24),
        // A fault in a property that isn't asked for.
        (object(&[RATE, PAIR, &[7, 0, 3, 4, 1, 0]]), WrongSize, 96),
        (bytes(&[8, 15, 5, 4]), OtherObject { type_: 5, id: 4 }, 0),
        (bytes(&[4, 4, 1, 0]), OtherType, 0),
        (whole[..40].to_vec(), Short, 0),
    ];
    for (input, kind, at) in rows {
        assert_eq!(place(read_as::<Both>(&input).map(|_| ())), Some((kind, at)), "{input:?}");
    }
    assert!(read_as::<Both>(&object(&[PAIR, RATE])).is_ok(), "properties in another order");
}

#[test]
fn an_error_prints_what_is_wrong_and_where() {
    let error = read_as::<Both>(&object(&[NAME, PAIR])).map(|_| ()).unwrap_err();
    assert_eq!(error.to_string(), "the property with key 1 is missing, at byte 0");
    let error = read_as::<Nested>(&bytes(&[16, 14, 4, 2, 1, 0])).map(|_| ()).unwrap_err();
    assert_eq!(error.to_string(), "the member 1 is missing, at byte 0");
    assert_eq!(read(&inside(3, 4)).unwrap_err().to_string(), "a body or the size of elements isn't as long as its type's, at byte 32");
    let other = read_as::<Both>(&bytes(&[8, 15, 5, 4])).map(|_| ()).unwrap_err();
    assert_eq!(other.to_string(), "an object of type 5 and id 4 isn't the one asked for, at byte 0");
}

/// A type that is read by hand.
#[derive(Debug)]
struct Even(i32);

impl<'de> PodDeserialize<'de> for Even {
    fn deserialize(
        deserializer: PodDeserializer<'de>,
    ) -> Result<(Even, spa_pod::pod::deserialize::DeserializeSuccess<'de>), DeserializeError<&'de [u8]>> {
        let (number, success) = i32::deserialize(deserializer)?;
        if number % 2 == 0 { Ok((Even(number), success)) } else { Err(DeserializeError::UnsupportedType) }
    }
}

impl ReadAs<'_> for Even {}

#[test]
fn a_type_that_is_read_by_hand_has_the_place_too() {
    assert!(matches!(read_as::<Even>(&bytes(&[4, 4, 6, 0])), Ok((Even(6), 16))));
    assert_eq!(place(read_as::<Even>(&bytes(&[4, 4, 7, 0]))), Some((ReadErrorKind::UnsupportedType, 0)));
    assert_eq!(place(read_as::<Even>(&bytes(&[4, 4, 7]))), Some((ReadErrorKind::Short, 0)));
}

#[test]
fn what_is_written_is_read() {
    let value = Value::Struct(vec![Value::Int(3), Value::None]);
    let wanted = bytes(&[24, 14, 4, 4, 3, 0, 0, 1]);
    assert_eq!(write(&value), Ok(wanted.clone()));
    assert_eq!(write_as(&7_i64), Ok(bytes(&[8, 5, 7, 0])));
    assert_eq!(read(&wanted), Ok((value, 32)));
    assert_eq!(write(&Value::String("a\0b".into())), Err(GenError::NulInText));
}

/// Structs in one another, so many of them.
fn nest(levels: u32) -> Vec<u8> {
    (0..levels).rev().flat_map(|inner| bytes(&[inner * 8, 14])).collect()
}

/// The name of what a call answers.
fn said<T>(answer: Result<T, DeserializeError<&[u8]>>) -> &'static str {
    answer.map_or_else(|error| error.kind(), |_| "read")
}

#[test]
fn plain_calls_take_1000_levels_and_name_deeper_ones() {
    // 160 kB that nest 20000 levels deep; and the deepest that is taken, and one level more.
    let rows = [(20_000, "TooDeep"), (1000, "read"), (1001, "TooDeep"), (999, "read")];
    assert_eq!(MOST_LEVELS, 1000);
    let thread = std::thread::Builder::new().stack_size(2 << 20).spawn(move || {
        for (levels, wanted) in rows {
            let input = nest(levels);
            let input = input.as_slice();
            assert_eq!(said(PodDeserializer::deserialize_any_from(input)), wanted, "{levels}");
            assert_eq!(said(PodDeserializer::deserialize_any_leniently_from(input)), wanted, "{levels} leniently");
            assert_eq!(said(PodDeserializer::deserialize_any_counted(input).0), wanted, "{levels} counted");
            assert_eq!(said(PodDeserializer::deserialize_from::<Value>(input)), wanted, "{levels} by its type");
            let found = place(read(input));
            assert_eq!(found.is_none(), wanted == "read", "{levels} at once");
            assert!(found.is_none_or(|found| found == (ReadErrorKind::TooDeep, 0)), "{levels} at once");
            assert_eq!(place(read_leniently(input)), found, "{levels} leniently at once");
            assert_eq!(place(read_as::<Value>(input)), found, "{levels} by its type at once");
            // Any depth.
            assert_eq!(read_unbounded(input).unwrap().1, input.len());
            assert!(read_as::<Held>(input).is_ok());
            let (rest, value) = PodDeserializer::deserialize_any_from_unbounded(input).unwrap();
            assert!(rest.is_empty());
            drop(Held::from(value));
            let (_, value) = PodDeserializer::deserialize_any_leniently_from_unbounded(input).unwrap();
            drop(Held::from(value));
        }
    });
    thread.unwrap().join().unwrap();
}

#[test]
fn a_struct_of_members_counts_for_each_of_them() {
    // A struct of 2000 Ints and one of 1000 structs in one another: the wide one isn't deep.
    let wide: Vec<u8> = [bytes(&[32_000, 14]), bytes(&[4, 4, 1, 0]).repeat(2000)].concat();
    assert!(read(&wide).is_ok());
    let deep = [bytes(&[8000 + 32_008, 14]), nest(1000), wide].concat();
    assert_eq!(place(read(&deep)), Some((ReadErrorKind::TooDeep, 0)));
    let deep = [bytes(&[7992 + 16_008, 14]), nest(999), bytes(&[16_000, 14]), bytes(&[4, 4, 1, 0]).repeat(1000)].concat();
    assert!(read(&deep).is_ok());
    assert_eq!(said(PodDeserializer::deserialize_any_within(999, &deep)), "TooDeep");
}

#[test]
fn lenient_reads_find_what_real_programs_send() {
    // A None choice over an array of the Ids 3 and 4.
    let input = bytes(&[32, 19, 0, 0, 16, 13, 4, 3, 3, 4]);
    assert_eq!(place(read(&input)), Some((ReadErrorKind::InvalidType, 0)));
    let (value, taken) = read_leniently(&input).unwrap();
    assert_eq!((value, taken), (Value::ValueArray(spa_pod::pod::ValueArray::Id(vec![spa_pod::utils::Id(3), spa_pod::utils::Id(4)])), 40));
    assert_eq!(place(read_leniently(&input[..39])), Some((ReadErrorKind::Short, 0)));
}
