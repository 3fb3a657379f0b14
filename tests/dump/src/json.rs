//! JSON to write.

use std::fmt;

pub enum Json {
    Null,
    Flag(bool),
    Number(u64),
    Text(String),
    List(Vec<Json>),
    Object(Vec<(&'static str, Json)>),
}

pub fn number(number: impl Into<u64>) -> Json {
    Json::Number(number.into())
}

pub fn text(text: &str) -> Json {
    Json::Text(text.to_string())
}

pub fn list(members: Vec<Json>) -> Json {
    Json::List(members)
}

pub fn object(members: Vec<(&'static str, Json)>) -> Json {
    Json::Object(members)
}

/// A text in which this one has to stand.
pub fn containing(part: &str) -> Json {
    object(vec![("contains", text(part))])
}

impl fmt::Display for Json {
    fn fmt(&self, out: &mut fmt::Formatter) -> fmt::Result {
        match self {
            Json::Null => write!(out, "null"),
            Json::Flag(flag) => write!(out, "{flag}"),
            Json::Number(number) => write!(out, "{number}"),
            Json::Text(text) => write!(out, "\"{text}\""),
            Json::List(members) => {
                write!(out, "[")?;
                for (at, member) in members.iter().enumerate() {
                    write!(out, "{}{member}", if at == 0 { "" } else { "," })?;
                }
                write!(out, "]")
            }
            Json::Object(members) => {
                write!(out, "{{")?;
                for (at, (key, member)) in members.iter().enumerate() {
                    write!(out, "{}\"{key}\":{member}", if at == 0 { "" } else { "," })?;
                }
                write!(out, "}}")
            }
        }
    }
}
