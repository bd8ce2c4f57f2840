//! JSON, written only.

use std::fmt;

/// A value; a number that is not finite has no form in JSON and is null.
#[derive(Debug, Clone)]
pub enum Json {
    Null,
    Bool(bool),
    Number(f64),
    Text(String),
    List(Vec<Json>),
    Object(Vec<(&'static str, Json)>),
}

impl Json {
    pub fn text(text: &str) -> Json {
        Json::Text(text.into())
    }

    pub fn object(fields: impl IntoIterator<Item = (&'static str, Json)>) -> Json {
        Json::Object(fields.into_iter().collect())
    }

    pub fn list<T: Into<Json>>(items: impl IntoIterator<Item = T>) -> Json {
        Json::List(items.into_iter().map(T::into).collect())
    }
}

impl From<bool> for Json {
    fn from(truth: bool) -> Json {
        Json::Bool(truth)
    }
}

impl From<f64> for Json {
    fn from(number: f64) -> Json {
        Json::Number(number)
    }
}

impl From<i32> for Json {
    fn from(number: i32) -> Json {
        Json::Number(number.into())
    }
}

impl From<u32> for Json {
    fn from(number: u32) -> Json {
        Json::Number(number.into())
    }
}

/// Counts are far below 2^53.
impl From<u64> for Json {
    fn from(number: u64) -> Json {
        Json::Number(number as f64)
    }
}

impl From<usize> for Json {
    fn from(number: usize) -> Json {
        Json::Number(number as f64)
    }
}

impl<T: Into<Json>> From<Option<T>> for Json {
    fn from(number: Option<T>) -> Json {
        number.map_or(Json::Null, T::into)
    }
}

/// The text in quotes.
fn quote(text: &str, to: &mut fmt::Formatter) -> fmt::Result {
    write!(to, "\"")?;
    for letter in text.chars() {
        match letter {
            '"' | '\\' => write!(to, "\\{letter}")?,
            '\0'..='\x1f' => write!(to, "\\u{:04x}", u32::from(letter))?,
            _ => write!(to, "{letter}")?,
        }
    }
    write!(to, "\"")
}

/// The number, so that it reads back as itself; small whole numbers have no exponent.
fn number(number: f64, to: &mut fmt::Formatter) -> fmt::Result {
    match number {
        _ if !number.is_finite() => write!(to, "null"),
        _ if number.fract() == 0.0 && number.abs() < 1e15 => write!(to, "{number}"),
        _ => write!(to, "{number:e}"),
    }
}

impl fmt::Display for Json {
    fn fmt(&self, to: &mut fmt::Formatter) -> fmt::Result {
        match self {
            Json::Null => write!(to, "null"),
            Json::Bool(truth) => write!(to, "{truth}"),
            Json::Number(value) => number(*value, to),
            Json::Text(text) => quote(text, to),
            Json::List(items) => {
                write!(to, "[")?;
                for (at, item) in items.iter().enumerate() {
                    write!(to, "{}{item}", if at == 0 { "" } else { ", " })?;
                }
                write!(to, "]")
            }
            Json::Object(fields) => {
                write!(to, "{{")?;
                for (at, (name, value)) in fields.iter().enumerate() {
                    write!(to, "{}\"{name}\": {value}", if at == 0 { "" } else { ", " })?;
                }
                write!(to, "}}")
            }
        }
    }
}
