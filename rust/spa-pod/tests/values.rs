//! Values made of Rust's, looked into, compared and printed; views as values. Bytes are hand-made words of docs/FORMAT.md.
use spa_pod::names::keys;
use spa_pod::pod::{Bitmap, ChoiceValue, Object, Pod, Property, PropertyFlags, Value, ValueArray, WrongType, same, try_same};
use spa_pod::utils::{Choice, ChoiceEnum, ChoiceFlags, Fd, Float32, Float64, Fraction, Id, Rectangle, SpaTypes};
use std::collections::HashSet;

fn bytes(words: &[u32]) -> Vec<u8> {
    words.iter().flat_map(|word| word.to_le_bytes()).collect()
}

fn one_of(numbers: Vec<i32>) -> Choice<i32> {
    Choice(ChoiceFlags::empty(), ChoiceEnum::Enum { default: 1, alternatives: numbers })
}

/// A value of each variant, made by `From` and by the variant, and its type's number.
fn rows() -> Vec<(Value, Value, u32)> {
    let size = Rectangle { width: 31, height: 14 };
    let rate = Fraction { num: 1, denom: 48000 };
    vec![
        (().into(), Value::None, 1),
        (true.into(), Value::Bool(true), 2),
        (Id(7).into(), Value::Id(Id(7)), 3),
        ((-3).into(), Value::Int(-3), 4),
        ((-3_i64).into(), Value::Long(-3), 5),
        // 440 is 1.71875 times 2 to the 8: the exponent is 127 + 8, or 1023 + 8, and 0.71875 is 23 thirty-seconds.
        (440.0_f32.into(), Value::Float(Float32(135 << 23 | 23 << 18)), 6),
        (440.0_f64.into(), Value::Double(Float64(1031 << 52 | 23 << 47)), 7),
        ("text".into(), Value::String("text".to_string()), 8),
        (String::from("text").into(), Value::String("text".to_string()), 8),
        ([1_u8, 2].as_slice().into(), Value::Bytes(vec![1, 2]), 9),
        (vec![1_u8, 2].into(), Value::Bytes(vec![1, 2]), 9),
        (size.into(), Value::Rectangle(size), 10),
        (rate.into(), Value::Fraction(rate), 11),
        (Bitmap(&[5]).into(), Value::Bitmap(vec![5]), 12),
        (vec![4, 5].into(), Value::ValueArray(ValueArray::Int(vec![4, 5])), 13),
        (vec![Id(4)].into(), Value::ValueArray(ValueArray::Id(vec![Id(4)])), 13),
        (vec![Value::None].into(), Value::Struct(vec![Value::None]), 14),
        (Object::new(5, 3).into(), Value::Object(Object { type_: 5, id: 3, properties: vec![] }), 15),
        ((9_u32, 10_u64).into(), Value::Pointer(9, 10), 17),
        (Fd(4).into(), Value::Fd(Fd(4)), 18),
        (one_of(vec![2]).into(), Value::Choice(ChoiceValue::Int(one_of(vec![2]))), 19),
    ]
}

#[test]
fn values_are_made_of_rusts() {
    for (made, wanted, type_) in rows() {
        assert_eq!(made, wanted);
        assert_eq!(wanted.type_(), SpaTypes(type_), "{wanted:?}");
        // The second word of a pod is its type.
        assert_eq!(spa_pod::write(&wanted).unwrap()[4..8], type_.to_le_bytes(), "{wanted:?}");
    }
}

/// The name of a type, and whether its look finds what the row of this type holds.
type Look = (&'static str, fn(&Value) -> bool);

#[test]
fn each_look_finds_its_own_type_alone() {
    let looks: [Look; 17] = [
        ("Bool", |value| value.as_bool() == Some(true)),
        ("Id", |value| value.as_id() == Some(Id(7))),
        ("Int", |value| value.as_int() == Some(-3)),
        ("Long", |value| value.as_long() == Some(-3)),
        ("Float", |value| value.as_float() == Some(440.0)),
        ("Double", |value| value.as_double() == Some(440.0)),
        ("String", |value| value.as_str() == Some("text")),
        ("Bytes", |value| value.as_bytes() == Some(&[1, 2])),
        ("Bitmap", |value| value.as_bitmap() == Some(&[5])),
        ("Rectangle", |value| value.as_rectangle() == Some(Rectangle { width: 31, height: 14 })),
        ("Fraction", |value| value.as_fraction() == Some(Fraction { num: 1, denom: 48000 })),
        ("Array", |value| value.as_array().is_some_and(|array| *array != ValueArray::None(vec![]))),
        ("Struct", |value| value.as_struct() == Some(&vec![Value::None])),
        ("Object", |value| value.as_object() == Some(&Object::new(5, 3))),
        ("Pointer", |value| value.as_pointer() == Some((9, 10))),
        ("Fd", |value| value.as_fd() == Some(Fd(4))),
        ("Choice", |value| value.as_choice() == Some(&ChoiceValue::Int(one_of(vec![2])))),
    ];
    let numbers = [2, 3, 4, 5, 6, 7, 8, 9, 12, 10, 11, 13, 14, 15, 17, 18, 19];
    for (value, _, type_) in rows() {
        for ((name, finds), number) in looks.iter().zip(numbers) {
            assert_eq!(finds(&value), type_ == number, "{name} of {value:?}");
        }
    }
}

#[test]
fn a_rate_is_changed() {
    let pod = |rate| bytes(&[56, 15, 262_147, 4, 1, 0, 4, 3, 1, 0, 65539, 0, 4, 4, rate, 0]);
    let (mut value, taken) = spa_pod::read(&pod(44100)).unwrap();
    value.as_object_mut().unwrap().set(keys::FORMAT_AUDIO_RATE, 48000);
    assert_eq!((spa_pod::write(&value), taken), (Ok(pod(48000)), 64));
}

#[test]
fn values_and_views_go_from_thread_to_thread() {
    fn is_shared<T: Send + Sync>() {}
    is_shared::<Value>();
    is_shared::<Pod<'_>>();
    is_shared::<spa_pod::ReadError>();
}

#[test]
fn what_a_value_holds_is_taken_out() {
    assert_eq!(i32::try_from(Value::Int(3)), Ok(3));
    assert_eq!(f32::try_from(Value::from(0.5_f32)), Ok(0.5));
    assert_eq!(f64::try_from(Value::from(0.5)), Ok(0.5));
    assert_eq!(String::try_from(Value::from("text")), Ok("text".to_string()));
    assert_eq!(Vec::<Value>::try_from(Value::Struct(vec![Value::None])), Ok(vec![Value::None]));
    assert_eq!(ValueArray::try_from(Value::from(vec![1])), Ok(ValueArray::Int(vec![1])));
    let error: WrongType = i32::try_from(Value::from("text")).unwrap_err();
    assert_eq!((error.wanted, error.found), (SpaTypes::Int, SpaTypes::String));
    assert_eq!(error.to_string(), "the value is of type String, and not Int");
    assert_eq!(ValueArray::try_from(Value::None).unwrap_err().to_string(), "the value is of type None, and not Array");
}

#[test]
fn an_object_is_changed_by_its_keys() {
    let mut object = Object::new(5, 3);
    object.properties.push(Property { key: 1, flags: PropertyFlags::READONLY, value: Value::Int(4) });
    object.properties.push(Property::new(1, Value::Int(5)));
    object.set(1, 48000).set(2, "name");
    assert_eq!(object.get(1), Some(&Value::Int(48000)));
    // The flags stay, and so does the second property with the key.
    assert_eq!(object.properties[0].flags, PropertyFlags::READONLY);
    assert_eq!(object.properties[1].value, Value::Int(5));
    assert_eq!(object.get(2).and_then(Value::as_str), Some("name"));
    assert_eq!(object.get(3), None);
    *object.get_mut(2).unwrap() = Value::None;
    assert_eq!(object.get_mut(9), None);
    let keys: Vec<u32> = (&object).into_iter().map(|property| property.key).collect();
    assert_eq!(keys, [1, 1, 2]);
    assert_eq!(object.into_iter().last().map(|property| property.value), Some(Value::None));
}

// With the feature `parts` they print as their bits, as in the proved tests.
#[cfg(not(feature = "parts"))]
#[test]
fn floats_print_as_numbers_and_are_equal_by_their_bits() {
    assert_eq!(format!("{:?}", Value::from(440.0_f32)), "Float(440.0)");
    assert_eq!(format!("{:?}", Value::from(vec![Float32::from(0.5)])), "ValueArray(Float([0.5]))");
    assert_eq!(format!("{:?}", Value::from(-0.25)), "Double(-0.25)");
    assert_eq!(format!("{:?}", Value::Float(Float32(0x7fc0_0001))), "Float(NaN(0x7fc00001))");
    let nan = Value::Float(Float32(0x7fc0_0001));
    assert!(nan == nan.clone() && nan != Value::Float(Float32(0x7fc0_0000)));
    let set: HashSet<Value> = [nan.clone(), nan, Value::from(0.0_f32), Value::from(-0.0_f32)].into_iter().collect();
    assert_eq!(set.len(), 3);
}

#[test]
fn equal_values_have_one_hash() {
    let all: HashSet<Value> = rows().into_iter().flat_map(|(made, wanted, _)| [made, wanted]).collect();
    // Two rows are the same text, and two the same bytes.
    assert_eq!(all.len(), rows().len() - 2);
    assert!(same(&Value::from(1), &Value::Int(1)) && !same(&Value::from(1), &Value::Long(1)));
    assert_eq!(try_same(&Value::None, &Value::None), Ok(true));
    let nested = || Value::Struct(vec![Value::Struct(vec![Value::Int(1)]), Value::None]);
    assert!(same(&nested(), &nested()));
}

#[test]
fn small_types_have_defaults_and_numbers() {
    assert_eq!((Id::default(), Fd::default()), (Id(0), Fd(0)));
    assert_eq!(Rectangle::default(), Rectangle { width: 0, height: 0 });
    assert_eq!(Fraction::default(), Fraction { num: 0, denom: 0 });
    assert_eq!(SpaTypes::default(), Value::default().type_());
    assert_eq!((u32::from(Id(5)), Id::from(5), u32::from(SpaTypes::Int), i64::from(Fd(3))), (5, Id(5), 4, 3));
}

#[test]
fn views_become_values_with_their_padding() {
    // An object of an Id, a text and a choice, none of which fills its last eight bytes.
    let words = [96, 15, 5, 3, 1, 0, 4, 3, 7, 0, 2, 4, 3, 8, 0x6261, 0, 3, 0, 20, 19, 0, 0, 4, 4, 9, 0];
    let input = bytes(&words);
    let mut wanted = Object::new(5, 3);
    wanted.set(1, Id(7)).set(2, "ab").set(3, Choice(ChoiceFlags::empty(), ChoiceEnum::None(9)));
    wanted.properties[1].flags = PropertyFlags::HINT_DICT;
    let pod = Pod::from_bytes(&input).unwrap();
    assert_eq!(pod.to_value(), Ok(Value::Object(wanted.clone())));
    assert_eq!(Value::try_from(pod), Ok(Value::Object(wanted.clone())));
    let object = pod.as_object().unwrap();
    assert_eq!(object.to_value(), Ok(Value::Object(wanted.clone())));
    let mut at = 16;
    for (property, wanted) in object.into_iter().zip(&wanted) {
        assert_eq!(property.to_value().as_ref(), Ok(&wanted.value));
        assert_eq!(property.value().padded_bytes(), spa_pod::write(&wanted.value).unwrap());
        let len = property.padded_bytes().len();
        assert_eq!(property.padded_bytes(), &input[at..at + len]);
        at += len;
    }
    assert_eq!(at, input.len());
    // Without the padding they would be cut short.
    assert!(spa_pod::read(object.find_prop(Id(1)).unwrap().value().as_bytes()).is_err());
}

#[test]
fn structs_are_gone_through() {
    let input = bytes(&[24, 14, 4, 4, 3, 0, 0, 1]);
    let members = Pod::from_bytes(&input).unwrap().as_struct().unwrap();
    let mut found = Vec::new();
    for member in &members {
        found.push(member.to_value().unwrap());
    }
    assert_eq!(found, [Value::Int(3), Value::None]);
    assert_eq!(members.into_iter().count(), 2);
    let faulty = bytes(&[24, 14, 4, 4, 3, 0, 0, 77]);
    let error = Pod::from_bytes(&faulty).unwrap().to_value().unwrap_err();
    assert_eq!((error.kind, error.at), (spa_pod::ReadErrorKind::InvalidType, 24));
}
