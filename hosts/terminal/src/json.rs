//! JSON, as much of it as is written here: numbers are whole and not below 0, and an object's names keep their order.

use std::fmt::{self, Write};

#[derive(Clone)]
pub enum Json {
    Null,
    Whether(bool),
    Number(u64),
    Text(String),
    List(Vec<Json>),
    Object(Vec<(String, Json)>),
}

impl Json {
    /// An object of these.
    pub fn object<N: Into<String>>(all: impl IntoIterator<Item = (N, Json)>) -> Json {
        Json::Object(all.into_iter().map(|(name, value)| (name.into(), value)).collect())
    }

    /// A list of these.
    pub fn list<T: Into<Json>>(all: impl IntoIterator<Item = T>) -> Json {
        Json::List(all.into_iter().map(Into::into).collect())
    }
}

impl From<bool> for Json {
    fn from(value: bool) -> Json {
        Json::Whether(value)
    }
}

impl<T: Into<Json>> From<Option<T>> for Json {
    fn from(value: Option<T>) -> Json {
        value.map_or(Json::Null, Into::into)
    }
}

impl From<&str> for Json {
    fn from(value: &str) -> Json {
        Json::Text(value.to_string())
    }
}

impl From<String> for Json {
    fn from(value: String) -> Json {
        Json::Text(value)
    }
}

macro_rules! numbers {
    ($($kind:ty)*) => { $(impl From<$kind> for Json {
        fn from(value: $kind) -> Json { Json::Number(value as u64) }
    })* };
}
numbers! { u8 u16 u32 u64 usize }

/// A text in its marks. What JSON asks to be escaped is; all else stands as it is.
fn text(f: &mut fmt::Formatter, value: &str) -> fmt::Result {
    f.write_char('"')?;
    for letter in value.chars() {
        match letter {
            '"' | '\\' => write!(f, "\\{letter}")?,
            '\0'..='\x1F' => write!(f, "\\u{:04x}", letter as u32)?,
            _ => f.write_char(letter)?,
        }
    }
    f.write_char('"')
}

/// All in one line.
impl fmt::Display for Json {
    fn fmt(&self, f: &mut fmt::Formatter) -> fmt::Result {
        match self {
            Json::Null => f.write_str("null"),
            Json::Whether(value) => write!(f, "{value}"),
            Json::Number(value) => write!(f, "{value}"),
            Json::Text(value) => text(f, value),
            Json::List(all) => {
                f.write_char('[')?;
                for (at, value) in all.iter().enumerate() {
                    write!(f, "{}{value}", if at == 0 { "" } else { "," })?;
                }
                f.write_char(']')
            }
            Json::Object(all) => {
                f.write_char('{')?;
                for (at, (name, value)) in all.iter().enumerate() {
                    f.write_str(if at == 0 { "" } else { "," })?;
                    text(f, name)?;
                    write!(f, ":{value}")?;
                }
                f.write_char('}')
            }
        }
    }
}
