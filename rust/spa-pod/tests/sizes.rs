//! Size words beyond what the input has, up to the greatest one: refused by each call, also where a `usize` has 32 bits.
use spa_pod::events::list_events;
use spa_pod::pod::deserialize::PodDeserializer;
use spa_pod::pod::{Pod, PodElements, nests_within, rewrite, rewrite_in_place, rewrite_in_place_leniently, rewrite_leniently};
use spa_pod::utils::Id;
use spa_pod::{ReadErrorKind, read, read_as, read_leniently};

fn bytes(words: &[u32]) -> Vec<u8> {
    words.iter().flat_map(|word| word.to_le_bytes()).collect()
}

/// Sizes around those at which extents stop fitting a slice, or a `usize`, of 32 bits.
const SIZES: [u32; 9] = [
    0x7fff_ffef, 0x7fff_fff0, 0x7fff_fff1, 0x7fff_ffff, 0x8000_0000, 0xffff_ffd8, 0xffff_fff0, 0xffff_fff9, u32::MAX,
];

#[test]
fn an_extent_beyond_the_input_is_short() {
    for size in SIZES {
        for type_ in 0..22 {
            let input = bytes(&[size, type_, 4, 4, 1, 0]);
            let short = |answer: Result<usize, spa_pod::ReadError>| {
                let error = answer.unwrap_err();
                assert_eq!((error.kind, error.at), (ReadErrorKind::Short, 0), "{size} of type {type_}");
            };
            short(read(&input).map(|found| found.1));
            short(read_leniently(&input).map(|found| found.1));
            short(read_as::<i32>(&input).map(|found| found.1));
            short(read_as::<&str>(&input).map(|found| found.1));
            short(read_as::<Vec<i64>>(&input).map(|found| found.1));
            assert!(Pod::from_bytes(&input).is_none());
            assert!(rewrite(&input).is_err() && rewrite_leniently(&input).is_err());
            assert!(rewrite_in_place(&mut input.clone()).is_err() && rewrite_in_place_leniently(&mut input.clone()).is_err());
            assert!(nests_within(&input, 1));
            assert_eq!(list_events(&input, &mut []), Some(0));
            // The same as a member of a struct, and as a property, which begin at bytes 8 and 24.
            let within = bytes(&[8, 14, size, type_]);
            assert_eq!(read(&within).unwrap_err().at, 8);
            assert_eq!(Pod::from_bytes(&within).unwrap().as_struct().unwrap().fields().count(), 0);
            let keyed = bytes(&[24, 15, 5, 3, 1, 0, size, type_]);
            assert_eq!(read(&keyed).unwrap_err().at, 24);
            let object = Pod::from_bytes(&keyed).unwrap().as_object().unwrap();
            assert!(object.find_prop(Id(1)).is_none() && object.props().count() == 0);
            assert!(PodDeserializer::deserialize_any_leniently_from(&keyed).is_err());
        }
    }
}

#[test]
fn a_child_size_beyond_the_body_is_wrong() {
    for size in SIZES {
        for shape in 0..5 {
            for type_ in [3, 4, 8, 13, 14, 15, 21] {
                let choice = bytes(&[24, 19, shape, 0, size, type_, 1, 0]);
                assert!(read(&choice).is_err(), "{size} in shape {shape} of type {type_}");
                assert!(rewrite(&choice).is_err() && rewrite_in_place(&mut choice.clone()).is_err());
                // What the lenient calls make of it has no more bytes than there are.
                let lenient = read_leniently(&choice).map(|found| found.1);
                assert!(lenient.is_err() || lenient == Ok(32));
                assert_eq!(lenient.is_ok(), rewrite_leniently(&choice).is_ok());
                let view = Pod::from_bytes(&choice).unwrap();
                assert!(view.to_value().is_err());
                let values = view.as_choice().unwrap().values();
                assert_eq!((values.len(), values.element_size()), (0, size));
                assert!(values.elements::<i32>().is_err());
                // A format with this choice, in which it is looked up.
                let format = bytes(&[48, 15, 5, 3, 1, 0, 24, 19, shape, 0, size, type_, 1, 0]);
                let object = Pod::from_bytes(&format).unwrap().as_object().unwrap();
                assert_eq!(object.get::<i32>(Id(1)), None);
            }
        }
        let array = bytes(&[16, 13, size, 4, 1, 2]);
        assert_eq!(read(&array).unwrap_err().kind, ReadErrorKind::WrongSize);
        let view = Pod::from_bytes(&array).unwrap().as_array().unwrap();
        assert_eq!(view.len(), 0);
        assert_eq!(view.elements::<i32>().map(PodElements::count).ok(), None);
    }
}
