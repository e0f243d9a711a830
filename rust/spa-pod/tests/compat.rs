//! The shapes of libspa, by hand-made words.
#![cfg(feature = "std")]
use spa_pod::compat::{By, ChoiceValue, Object, PodDeserializer, PodSerializer, Property, Value, ValueArray, Visitor};
use spa_pod::pod;
use spa_pod::pod::PropertyFlags;
use spa_pod::pod::deserialize::{DeserializeError, DeserializeSuccess, PodDeserialize, StructPodDeserializer};
use spa_pod::pod::serialize::GenError;
use spa_pod::utils::{Choice, ChoiceEnum, ChoiceFlags, Fd, Fraction, Id, Rectangle};
use std::io::{Cursor, Seek, SeekFrom};

fn bytes(words: &[u32]) -> Vec<u8> {
    words.iter().flat_map(|word| word.to_le_bytes()).collect()
}

fn choice<T>(values: ChoiceEnum<T>) -> Choice<T> {
    Choice(ChoiceFlags::from_bits_retain(0), values)
}

/// Values over floats, and their words. The float 1 is the exponent 127, the double 1 the exponent 1023.
fn rows() -> Vec<(Value, Vec<u32>)> {
    let ones = vec![1.0, -0.0];
    vec![
        (Value::None, vec![0, 1]),
        (Value::Bool(true), vec![4, 2, 1, 0]),
        (Value::Id(Id(7)), vec![4, 3, 7, 0]),
        (Value::Int(-1), vec![4, 4, u32::MAX, 0]),
        (Value::Long(2), vec![8, 5, 2, 0]),
        (Value::Float(1.0), vec![4, 6, 127 << 23, 0]),
        (Value::Double(1.0), vec![8, 7, 0, 1023 << 20]),
        (Value::String("ab".into()), vec![3, 8, 0x6261, 0]),
        (Value::Bytes(vec![1]), vec![1, 9, 1, 0]),
        (Value::Bitmap(vec![1]), vec![1, 12, 1, 0]),
        (Value::Rectangle(Rectangle { width: 31, height: 14 }), vec![8, 10, 31, 14]),
        (Value::Fraction(Fraction { num: 31, denom: 14 }), vec![8, 11, 31, 14]),
        (Value::Fd(Fd(5)), vec![8, 18, 5, 0]),
        (Value::ValueArray(ValueArray::Float(ones)), vec![16, 13, 4, 6, 127 << 23, 1 << 31]),
        (Value::ValueArray(ValueArray::Int(vec![3])), vec![12, 13, 4, 4, 3, 0]),
        (Value::Struct(vec![Value::Float(1.0)]), vec![16, 14, 4, 6, 127 << 23, 0]),
        (
            Value::Object(Object {
                type_: 5,
                id: 3,
                properties: vec![Property { key: 1, flags: PropertyFlags::READONLY, value: Value::Double(1.0) }],
            }),
            vec![32, 15, 5, 3, 1, 1, 8, 7, 0, 1023 << 20],
        ),
        (
            Value::Choice(ChoiceValue::Float(choice(ChoiceEnum::Range { default: 1.0, min: 0.0, max: 1.0 }))),
            vec![28, 19, 1, 0, 4, 6, 127 << 23, 0, 127 << 23, 0],
        ),
        (
            Value::Choice(ChoiceValue::Double(choice(ChoiceEnum::Enum { default: 1.0, alternatives: vec![0.0] }))),
            vec![32, 19, 3, 0, 8, 7, 0, 1023 << 20, 0, 0],
        ),
        (Value::Choice(ChoiceValue::Int(choice(ChoiceEnum::Flags { default: 1, flags: vec![] }))), vec![20, 19, 4, 0, 4, 4, 1, 0]),
        (
            Value::Choice(ChoiceValue::Int(choice(ChoiceEnum::Step { default: 1, min: 0, max: 4, step: 2 }))),
            vec![32, 19, 2, 0, 4, 4, 1, 0, 4, 2],
        ),
        (Value::Choice(ChoiceValue::Float(choice(ChoiceEnum::None(1.0)))), vec![20, 19, 0, 0, 4, 6, 127 << 23, 0]),
        (Value::Pointer(9, 10), vec![16, 17, 9, 0, 10, 0]),
    ]
}

#[test]
fn values_over_floats_are_written_and_read() {
    for (value, words) in rows() {
        let wanted = bytes(&words);
        let (out, len) = PodSerializer::serialize(Cursor::new(Vec::new()), &value).unwrap();
        assert_eq!((out.into_inner(), len), (wanted.clone(), wanted.len() as u64), "{value:?}");
        let (rest, again) = PodDeserializer::deserialize_any_from(&wanted).unwrap();
        assert!(rest.is_empty());
        assert_eq!(again, value);
        assert_eq!(Value::from(pod::Value::from(value.clone())), value);
    }
    assert!(PodDeserializer::deserialize_any_from(&bytes(&[3, 4, 0, 0])).is_err());
}

#[test]
fn an_output_is_written_at_its_place() {
    let mut out = Cursor::new(vec![9; 4]);
    out.seek(SeekFrom::End(0)).unwrap();
    let (out, len) = PodSerializer::serialize(out, &7_i32).unwrap();
    assert_eq!((out.into_inner(), len), ([vec![9; 4], bytes(&[4, 4, 7, 0])].concat(), 16));
    let mut room = [0; 15];
    assert_eq!(PodSerializer::serialize(Cursor::new(room.as_mut_slice()), &7_i32).err(), Some(GenError::Io));
    assert_eq!(PodSerializer::serialize(Cursor::new(Vec::new()), &"a\0b").err(), Some(GenError::NulInText));
}

/// A type that is read as libspa's own tests read theirs: by a visitor with the call that it takes.
#[derive(Debug, PartialEq)]
struct Gain {
    name: String,
    gain: f32,
}

struct GainVisitor;

impl<'de> Visitor<'de> for GainVisitor {
    type Value = Gain;
    type ArrayElem = ();

    fn visit_struct(&self, given: &mut StructPodDeserializer<'de>) -> Result<Gain, DeserializeError<&'de [u8]>> {
        let name = given.deserialize_field()?.ok_or(DeserializeError::PropertyMissing)?;
        let gain = given.deserialize_field::<f32>()?.ok_or(DeserializeError::PropertyMissing)?;
        Ok(Gain { name, gain })
    }
}

impl<'de> PodDeserialize<'de> for Gain {
    fn deserialize(
        deserializer: pod::deserialize::PodDeserializer<'de>,
    ) -> Result<(Gain, DeserializeSuccess<'de>), DeserializeError<&'de [u8]>> {
        deserializer.deserialize_struct(By(GainVisitor))
    }
}

#[test]
fn a_visitor_has_a_call_for_each_kind() {
    let input = bytes(&[32, 14, 2, 8, 0x61, 0, 4, 6, 127 << 23, 0]);
    let (_, gain) = pod::deserialize::PodDeserializer::deserialize_from::<Gain>(&input).unwrap();
    assert_eq!(gain, Gain { name: "a".into(), gain: 1.0 });
    // Each other kind is declined.
    for (value, words) in rows() {
        let input = bytes(&words);
        let answer = pod::deserialize::PodDeserializer::deserialize_from::<Gain>(&input);
        assert!(answer.is_err(), "{value:?}");
    }
}

/// A visitor that says which of its calls was made.
struct Named;

macro_rules! named {
    ($($call:ident($($type_:ty),*);)*) => {
        impl<'de> Visitor<'de> for Named {
            type Value = &'static str;
            type ArrayElem = i32;

            $(fn $call(&self, $(_: $type_),*) -> Result<&'static str, DeserializeError<&'de [u8]>> {
                Ok(stringify!($call))
            })*
        }
    };
}

named! {
    visit_none(); visit_bool(bool); visit_int(i32); visit_long(i64); visit_float(f32); visit_double(f64); visit_string(&'de str);
    visit_bytes(&'de [u8]); visit_bitmap(&'de [u8]); visit_rectangle(Rectangle); visit_fraction(Fraction); visit_id(Id); visit_fd(Fd);
    visit_array(Vec<i32>); visit_pointer(u32, u64); visit_choice_i32(Choice<i32>); visit_choice_f32(Choice<f32>);
    visit_choice_f64(Choice<f64>);
}

#[test]
fn each_kind_has_its_call() {
    use pod::deserialize::{Visit, Visitor as _};
    let given: [(Visit<'_, i32>, &str); 18] = [
        (Visit::None, "visit_none"),
        (Visit::Bool(true), "visit_bool"),
        (Visit::Int(1), "visit_int"),
        (Visit::Long(1), "visit_long"),
        (Visit::Float(1.0.into()), "visit_float"),
        (Visit::Double(1.0.into()), "visit_double"),
        (Visit::String("a"), "visit_string"),
        (Visit::Bytes(&[1]), "visit_bytes"),
        (Visit::Bitmap(&[1]), "visit_bitmap"),
        (Visit::Rectangle(Rectangle::default()), "visit_rectangle"),
        (Visit::Fraction(Fraction::default()), "visit_fraction"),
        (Visit::Id(Id(1)), "visit_id"),
        (Visit::Fd(Fd(1)), "visit_fd"),
        (Visit::Array(vec![1]), "visit_array"),
        (Visit::Pointer(1, 2), "visit_pointer"),
        (Visit::Choice(pod::ChoiceValue::Int(choice(ChoiceEnum::None(1)))), "visit_choice_i32"),
        (Visit::Choice(pod::ChoiceValue::Float(choice(ChoiceEnum::None(1.0.into())))), "visit_choice_f32"),
        (Visit::Choice(pod::ChoiceValue::Double(choice(ChoiceEnum::None(1.0.into())))), "visit_choice_f64"),
    ];
    for (content, wanted) in given {
        assert_eq!(By(Named).visit(content), Ok(wanted));
    }
    let declined = By(Named).visit(Visit::Choice(pod::ChoiceValue::Fd(choice(ChoiceEnum::None(Fd(1))))));
    assert_eq!(declined, Err(DeserializeError::UnsupportedType));
}
