//! What holds of any bytes: the fuzz target and a test of the crate call it.
use spa_pod::pod::{Held, Pod, find_fault, is_canonical, nests_within, rewrite, rewrite_in_place, rewrite_leniently, same};
use spa_pod::{ReadErrorKind, read, read_as, read_leniently, read_unbounded, write, write_as};

#[derive(Debug, PartialEq)]
struct Audio {
    rate: i32,
    channels: Option<i32>,
}

spa_pod::pod_object!(impl Audio = 262_147, 4; { rate: i32 = 65_539, channels?: i32 = 65_540 });

/// Calls what reads, rewrites and looks at these bytes, and compares what is answered.
pub fn check(bytes: &[u8]) {
    check_read(bytes);
    check_leniently(bytes);
    if let Ok((audio, taken)) = read_as::<Audio>(bytes) {
        assert!(read(bytes).is_ok_and(|(_, all)| all == taken));
        let written = write_as(&audio).expect("an audio format is written");
        assert_eq!(read_as(&written), Ok((audio, written.len())));
    }
    if let Some(pod) = Pod::from_bytes(bytes) {
        look(pod, 8);
    }
}

/// What is read is written as its canonical encoding, which is read as the same.
fn check_read(bytes: &[u8]) {
    match read_unbounded(bytes) {
        Ok((value, taken)) => {
            let written = write(&value).expect("what is read is written");
            let (rest, made) = rewrite(bytes).expect("what is read is rewritten");
            assert_eq!((rest.len(), &made), (bytes.len() - taken, &written));
            assert!(same(&value, &read_unbounded(&written).expect("what is written is read").0));
            assert!(is_canonical(&written) == Ok(true));
            let mut in_place = bytes[..taken].to_vec();
            let len = rewrite_in_place(&mut in_place).expect("what is read is rewritten in place");
            assert_eq!(in_place[..len], written);
            let plain = read(bytes).map(|(value, _)| Held::from(value)).map_err(|error| error.kind);
            assert_eq!(plain.err(), (!nests_within(bytes, 1000)).then_some(ReadErrorKind::TooDeep));
        }
        Err(error) => {
            assert!(error.at <= bytes.len());
            assert!(rewrite(bytes).is_err() && (bytes.is_empty() || find_fault(bytes).is_err()));
        }
    }
}

/// A lenient rewriting is a pod of what is read leniently.
fn check_leniently(bytes: &[u8]) {
    match (read_leniently(bytes), rewrite_leniently(bytes)) {
        (Ok((value, _)), Ok((_, made))) => assert_eq!(write(&value).as_ref(), Ok(&made)),
        (Err(error), Ok(_)) => assert_eq!(error.kind, ReadErrorKind::TooDeep),
        (Err(_), Err(_)) => {}
        (Ok(_), Err(error)) => panic!("{error:?}"),
    }
}

/// Looks at a pod and, so many levels deep, at what is inside of it.
fn look(pod: Pod<'_>, levels: u32) {
    let _ = (pod.get_string_raw(), pod.get_pointer(), pod.get_int());
    if let Ok(choice) = pod.as_choice() {
        assert!(choice.values().elements::<i32>().map_or(0, Iterator::count) <= choice.values().len());
    }
    if levels == 0 {
        return;
    }
    for member in pod.as_struct().into_iter().flatten() {
        look(member, levels - 1);
    }
    for property in pod.as_object().into_iter().flatten() {
        look(property.value(), levels - 1);
    }
}
