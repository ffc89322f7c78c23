//! Values and texts of the library for serde: the feature `serde`.
//! A value is read from formats that say what comes next, as JSON does, and not from those that don't.
use crate::Value;
use serde::de::{Deserialize, Deserializer, Error, Visitor};
use serde::ser::{Serialize, Serializer};
use std::fmt;

/// As a truth value, a number or a string. A number of more than 64 bits needs a format that has such.
impl Serialize for Value {
    fn serialize<S: Serializer>(&self, serializer: S) -> Result<S::Ok, S::Error> {
        match self {
            Value::Truth(truth) => serializer.serialize_bool(*truth),
            Value::Number(number) => match i64::try_from(*number) {
                Ok(number) => serializer.serialize_i64(number),
                Err(_) => serializer.serialize_i128(*number),
            },
            Value::Name(name) => serializer.serialize_str(name),
        }
    }
}

/// ```
/// use katara::Value;
/// use serde::de::{value::Error, Deserialize, IntoDeserializer};
///
/// let milk: Result<Value, Error> = Value::deserialize("milk".into_deserializer());
/// assert_eq!(milk, Ok("milk".into()));
/// ```
impl<'de> Deserialize<'de> for Value {
    fn deserialize<D: Deserializer<'de>>(deserializer: D) -> Result<Value, D::Error> {
        struct Any;

        impl Visitor<'_> for Any {
            type Value = Value;

            fn expecting(&self, f: &mut fmt::Formatter) -> fmt::Result {
                f.write_str("a truth value, a whole number or a name")
            }

            fn visit_bool<E: Error>(self, truth: bool) -> Result<Value, E> {
                Ok(truth.into())
            }

            fn visit_i64<E: Error>(self, number: i64) -> Result<Value, E> {
                Ok(number.into())
            }

            fn visit_i128<E: Error>(self, number: i128) -> Result<Value, E> {
                Ok(number.into())
            }

            fn visit_u64<E: Error>(self, number: u64) -> Result<Value, E> {
                Ok(number.into())
            }

            fn visit_str<E: Error>(self, name: &str) -> Result<Value, E> {
                Ok(name.into())
            }
        }

        deserializer.deserialize_any(Any)
    }
}

/// What the library writes is a text: with `#[serde(with = "katara::as_text")]` the `Vec<u8>` of a state, a share or a packet is a string
/// in JSON, and not a list of numbers.
///
/// ```
/// use serde::de::{value::Error, IntoDeserializer};
///
/// let state: Result<Vec<u8>, Error> = katara::as_text::deserialize("[\"state\",1,1,0,[false]]\n".into_deserializer());
/// assert_eq!(state.unwrap(), b"[\"state\",1,1,0,[false]]\n");
/// ```
pub mod as_text {
    use super::*;
    use serde::ser::Error as _;

    /// The bytes as a string; they are no text only if they aren't the library's.
    pub fn serialize<S: Serializer>(bytes: &[u8], serializer: S) -> Result<S::Ok, S::Error> {
        let text = std::str::from_utf8(bytes).map_err(S::Error::custom)?;
        serializer.serialize_str(text)
    }

    /// The bytes of a string. Only `merge` and the like look whether they are a state.
    pub fn deserialize<'de, D: Deserializer<'de>>(deserializer: D) -> Result<Vec<u8>, D::Error> {
        struct Text;

        impl Visitor<'_> for Text {
            type Value = Vec<u8>;

            fn expecting(&self, f: &mut fmt::Formatter) -> fmt::Result {
                f.write_str("the text of a state, a share or a packet")
            }

            fn visit_str<E: Error>(self, text: &str) -> Result<Vec<u8>, E> {
                Ok(text.into())
            }
        }

        deserializer.deserialize_str(Text)
    }
}
