//! The features of `spa-pod` over the crates for which they are, from a registry.
#![cfg(test)]
use arrayvec::ArrayVec;
use serde::{Deserialize, Serialize};
use spa_pod::pod::serialize::{GenError, PodSerializer};
use spa_pod::pod::{Held, Value};

#[test]
fn an_array_is_an_output() {
    let (out, len) = PodSerializer::serialize(ArrayVec::<u8, 24>::new(), &Value::Struct(vec![Value::Int(7)])).unwrap();
    assert_eq!((out.as_slice(), len), (&spa_pod::write(&Value::Struct(vec![Value::Int(7)])).unwrap()[..], 24));
    let full = PodSerializer::serialize(ArrayVec::<u8, 16>::new(), &Value::Struct(vec![Value::Int(7)]));
    assert_eq!(full.err(), Some(GenError::Full));
}

#[derive(Debug, Deserialize, PartialEq, Serialize)]
struct Preset {
    name: String,
    props: Value,
    more: Option<Value>,
}

#[test]
fn a_value_is_carried_by_json() {
    let preset = Preset { name: "quiet".into(), props: Value::Int(313), more: None };
    let text = serde_json::to_string(&preset).unwrap();
    assert_eq!(text, r#"{"name":"quiet","props":[4,0,0,0,4,0,0,0,57,1,0,0,0,0,0,0],"more":null}"#);
    assert_eq!(serde_json::from_str::<Preset>(&text).unwrap(), preset);
    let short = serde_json::from_str::<Value>("[4,0]").unwrap_err();
    assert!(short.to_string().starts_with("the bytes are cut short, at byte 0"), "{short}");
    let more = serde_json::from_str::<Value>("[0,0,0,0,1,0,0,0,0]").unwrap_err();
    assert!(more.to_string().starts_with("a pod ends at byte 8 of 9"), "{more}");
    assert!(serde_json::from_str::<Value>("[256]").is_err());
}

#[test]
fn a_value_that_nests_too_deep_is_refused() {
    let mut value = Value::None;
    for _ in 0..=spa_pod::pod::MOST_LEVELS {
        value = Value::Struct(vec![value]);
    }
    let value = Held::from(value);
    let text = serde_json::to_string(&*value).unwrap();
    assert!(serde_json::from_str::<Value>(&text).is_err());
}
