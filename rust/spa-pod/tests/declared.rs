//! Types that are declared by their fields: each is read from, and written as, words that were made by hand.
use spa_pod::names::{ids, keys, types};
use spa_pod::pod::deserialize::PodDeserializer;
use spa_pod::pod::serialize::GenError;
use spa_pod::pod::{Bitmap, PropertyFlags, Value};
use spa_pod::utils::{Choice, ChoiceEnum, ChoiceFlags, Fd, Fraction, Id, Rectangle};
use spa_pod::{ReadErrorKind, pod_object, pod_struct, read_as, write_as};

fn bytes(words: &[u32]) -> Vec<u8> {
    words.iter().flat_map(|word| word.to_le_bytes()).collect()
}

// An object of one's own.
#[derive(Clone, Debug, PartialEq)]
struct Audio { rate: i32, channels: Option<i32> }
pod_object!(impl Audio = types::OBJECT_FORMAT, ids::PARAM_FORMAT; {
    rate: i32 = keys::FORMAT_AUDIO_RATE,
    channels?: i32 = keys::FORMAT_AUDIO_CHANNELS,
});

#[test]
fn an_object_is_read_and_written() {
    let both = [56, 15, 262_147, 4, 65_539, 0, 4, 4, 48000, 0, 65_540, 0, 4, 4, 2, 0];
    let one = [32, 15, 262_147, 4, 65_539, 0, 4, 4, 48000, 0];
    for (words, audio) in [
        (both.as_slice(), Audio { rate: 48000, channels: Some(2) }),
        (one.as_slice(), Audio { rate: 48000, channels: None }),
    ] {
        let input = bytes(words);
        assert_eq!(write_as(&audio), Ok(input.clone()));
        assert_eq!(read_as(&input), Ok((audio.clone(), input.len())));
        assert_eq!(PodDeserializer::deserialize_from::<Audio>(&input).map(|(_, found)| found).ok(), Some(audio));
    }
}

#[test]
fn properties_stand_in_any_order_behind_others_and_in_none_choices() {
    // The channels; a text under another key; the rate as a None choice with a flag.
    let words = [104, 15, 262_147, 4, 65_540, 0, 4, 4, 2, 0, 9, 0, 2, 8, 0x61, 0, 65_539, 8, 20, 19, 0, 0, 4, 4, 48000, 0];
    let input = bytes(&[&[words.len() as u32 * 4 - 8], &words[1..]].concat());
    assert_eq!(read_as(&input), Ok((Audio { rate: 48000, channels: Some(2) }, 104)));
}

#[test]
fn a_refusal_names_the_key() {
    let without_rate = bytes(&[32, 15, 262_147, 4, 65_540, 0, 4, 4, 2, 0]);
    let error = read_as::<Audio>(&without_rate).unwrap_err();
    assert_eq!((error.kind, error.at), (ReadErrorKind::MissingProperty(65_539), 0));
    // An Enum of two rates stands at byte 24.
    let offered = bytes(&[48, 15, 262_147, 4, 65_539, 0, 24, 19, 3, 0, 4, 4, 44100, 48000]);
    let error = read_as::<Audio>(&offered).unwrap_err();
    assert_eq!((error.kind, error.at), (ReadErrorKind::UnsupportedType, 24));
    let other = bytes(&[8, 15, 262_146, 2]);
    let error = read_as::<Audio>(&other).unwrap_err();
    assert_eq!((error.kind, error.at), (ReadErrorKind::OtherObject { type_: 262_146, id: 2 }, 0));
}

#[derive(Clone, Debug, PartialEq)]
struct Point { x: f32, y: f64 }
pod_struct!(impl Point = { x: f32, y: f64 });

#[derive(Debug, PartialEq)]
struct Shape<'a> { name: &'a str, at: Point, others: Vec<i32>, weight: i64, any: Option<Value> }
pod_object!(impl<'a> Shape<'a> = 5, 3; {
    name: &'a str = 1; flags PropertyFlags::READONLY,
    at: Point = 2; flags PropertyFlags::from_bits_retain(64),
    others: Vec<i32> = 3; default vec![7],
    weight: i64 = 4; default -1; flags PropertyFlags::MANDATORY,
    any?: Value = 5; flags PropertyFlags::HINT_DICT
});

const AT: [u32; 10] = [2, 64, 32, 14, 4, 6, 0x3f80_0000, 0, 8, 7];

#[test]
fn fields_have_flags_defaults_and_types_of_ones_own() {
    // The double 0.5 has the exponent 1022.
    let at = [AT.as_slice(), &[0, 1022 << 20]].concat();
    let name = [1, 1, 3, 8, 0x0000_6261, 0];
    let body = [name.as_slice(), &at, &[3, 0, 12, 13, 4, 4, 9, 0], &[4, 8, 8, 5, 2, 0], &[5, 4, 0, 1]].concat();
    let input = bytes(&[&[body.len() as u32 * 4 + 8, 15, 5, 3], body.as_slice()].concat());
    let shape = Shape { name: "ab", at: Point { x: 1.0, y: 0.5 }, others: vec![9], weight: 2, any: Some(Value::None) };
    assert_eq!(write_as(&shape), Ok(input.clone()));
    assert_eq!(read_as(&input), Ok((shape, input.len())));
    // What has a default, and what may be missing, isn't there; flags are others.
    let body = [&[1, 0, 3, 8, 0x0000_6261, 0], at.as_slice()].concat();
    let input = bytes(&[&[body.len() as u32 * 4 + 8, 15, 5, 3], body.as_slice()].concat());
    let shape = Shape { name: "ab", at: Point { x: 1.0, y: 0.5 }, others: vec![7], weight: -1, any: None };
    assert_eq!(read_as(&input), Ok((shape, input.len())));
    // The inner struct lacks its second member; it begins at byte 48.
    let body = [name.as_slice(), &[2, 64, 16, 14, 4, 6, 0, 0]].concat();
    let input = bytes(&[&[body.len() as u32 * 4 + 8, 15, 5, 3], body.as_slice()].concat());
    let error = read_as::<Shape>(&input).unwrap_err();
    assert_eq!((error.kind, error.at), (ReadErrorKind::MissingMember(1), 48));
}

#[derive(Debug, PartialEq)]
struct Empty {}
pod_struct!(impl Empty = {});

#[derive(Debug, PartialEq)]
struct Nothing {}
pod_object!(impl Nothing = 5, 3; {});

#[derive(Clone, Debug)]
struct Every<'a> {
    none: (), truth: bool, id: Id, int: i32, long: i64, text: String, bytes: Vec<u8>, borrowed: &'a [u8], map: Bitmap<'a>, size: Rectangle,
    rate: Fraction, fd: Fd, ids: Vec<Id>, choice: Choice<i32>, pointer: (u32, u64), value: Value, spares: Option<Vec<bool>>,
}
pod_object!(impl<'a> Every<'a> = 1, 2; {
    none: () = 1, truth: bool = 2, id: Id = 3, int: i32 = 4, long: i64 = 5, text: String = 6, bytes: Vec<u8> = 7, borrowed: &'a [u8] = 8,
    map: Bitmap<'a> = 9, size: Rectangle = 10, rate: Fraction = 11, fd: Fd = 12, ids: Vec<Id> = 13, choice: Choice<i32> = 14,
    pointer: (u32, u64) = 15, value: Value = 16, spares?: Vec<bool> = 17,
});

#[test]
fn a_field_is_of_any_type_that_pods_have() {
    assert_eq!((write_as(&Empty {}), read_as(&bytes(&[0, 14]))), (Ok(bytes(&[0, 14])), Ok((Empty {}, 8))));
    assert_eq!((write_as(&Nothing {}), read_as(&bytes(&[8, 15, 5, 3]))), (Ok(bytes(&[8, 15, 5, 3])), Ok((Nothing {}, 16))));
    let every = Every {
        none: (), truth: true, id: Id(1), int: 2, long: 3, text: "t".to_string(), bytes: vec![4], borrowed: &[5], map: Bitmap(&[6]),
        size: Rectangle { width: 7, height: 8 }, rate: Fraction { num: 9, denom: 10 }, fd: Fd(11), ids: vec![Id(12)],
        choice: Choice(ChoiceFlags::empty(), ChoiceEnum::None(13)), pointer: (14, 15), value: Value::Int(16), spares: Some(vec![true]),
    };
    let written = write_as(&every).unwrap();
    let words = [
        &[0, 15, 1, 2, 1, 0, 0, 1, 2, 0, 4, 2, 1, 0, 3, 0, 4, 3, 1, 0, 4, 0, 4, 4, 2, 0, 5, 0, 8, 5, 3, 0, 6, 0, 2, 8, 0x74, 0][..],
        &[7, 0, 1, 9, 4, 0, 8, 0, 1, 9, 5, 0, 9, 0, 1, 12, 6, 0, 10, 0, 8, 10, 7, 8, 11, 0, 8, 11, 9, 10, 12, 0, 8, 18, 11, 0],
        &[13, 0, 12, 13, 4, 3, 12, 0, 14, 0, 20, 19, 0, 0, 4, 4, 13, 0, 15, 0, 16, 17, 14, 0, 15, 0, 16, 0, 4, 4, 16, 0],
        &[17, 0, 12, 13, 4, 2, 1, 0],
    ];
    let mut words = words.concat();
    words[0] = words.len() as u32 * 4 - 8;
    assert_eq!(written, bytes(&words));
    let (again, taken) = read_as::<Every>(&written).unwrap();
    assert_eq!(taken, written.len());
    assert_eq!(format!("{again:?}"), format!("{every:?}"));
}

#[derive(Clone, Debug, PartialEq)]
struct Clock<'a> { name: &'a str, ticks: i64, rate: Option<Fraction>, point: Option<Point> }
pod_struct!(impl<'a> Clock<'a> = { name: &'a str, ticks: i64, rate?: Fraction, point?: Point });

#[test]
fn the_last_members_may_be_missing() {
    let two = [2, 8, 0x61, 0, 8, 5, 9, 0];
    let three = [two.as_slice(), &[8, 11, 1, 25]].concat();
    let four = [three.as_slice(), &[32, 14, 4, 6, 0x3f80_0000, 0, 8, 7, 0, 1022 << 20]].concat();
    let clock = Clock { name: "a", ticks: 9, rate: None, point: None };
    let rated = Clock { rate: Some(Fraction { num: 1, denom: 25 }), ..clock.clone() };
    let whole = Clock { point: Some(Point { x: 1.0, y: 0.5 }), ..rated.clone() };
    for (body, clock) in [(two.as_slice(), clock.clone()), (&three, rated), (&four, whole.clone())] {
        let input = bytes(&[&[body.len() as u32 * 4, 14], body].concat());
        assert_eq!(write_as(&clock), Ok(input.clone()));
        assert_eq!(read_as(&input), Ok((clock, input.len())));
    }
    // A later one without an earlier.
    assert_eq!(write_as(&Clock { rate: None, ..whole }), Err(GenError::WrongCount));
    // The second is missing; the third is of another type, at byte 40; there is a fifth, at byte 96.
    for (body, kind, at) in [
        ([2, 8, 0x61, 0].as_slice(), ReadErrorKind::MissingMember(1), 0),
        (&[two.as_slice(), &[4, 4, 25, 0]].concat(), ReadErrorKind::OtherType, 40),
        (&[four.as_slice(), &[4, 4, 1, 0]].concat(), ReadErrorKind::UnreadMembers, 96),
    ] {
        let error = read_as::<Clock>(&bytes(&[&[body.len() as u32 * 4, 14], body].concat())).unwrap_err();
        assert_eq!((error.kind, error.at), (kind, at));
    }
}
