//! Values, and what their data is as objects of Rust.

use crate::error::{Error, Result, Status};
use crate::ffi;
use std::fmt;

/// A value's type: any number. Those that have a meaning have a name here.
#[derive(Clone, Copy, Debug, Default, PartialEq, Eq, Hash)]
pub struct Kind(pub u32);

impl Kind {
    /// Data without a type.
    pub const NONE: Kind = Kind(ffi::NONE);
    /// A text.
    pub const SZ: Kind = Kind(ffi::SZ);
    /// A text with names of environment variables in it.
    pub const EXPAND_SZ: Kind = Kind(ffi::EXPAND_SZ);
    /// Bytes.
    pub const BINARY: Kind = Kind(ffi::BINARY);
    /// A number of 32 bits, its lowest byte first.
    pub const DWORD: Kind = Kind(ffi::DWORD);
    /// A number of 32 bits, its highest byte first.
    pub const DWORD_BIG_ENDIAN: Kind = Kind(ffi::DWORD_BIG_ENDIAN);
    /// The path of another key, as a text without an end.
    pub const LINK: Kind = Kind(ffi::LINK);
    /// Texts.
    pub const MULTI_SZ: Kind = Kind(ffi::MULTI_SZ);
    /// A driver's resources.
    pub const RESOURCE_LIST: Kind = Kind(ffi::RESOURCE_LIST);
    /// A device's resources.
    pub const FULL_RESOURCE_DESCRIPTOR: Kind = Kind(ffi::FULL_RESOURCE_DESCRIPTOR);
    /// What resources a driver may be given.
    pub const RESOURCE_REQUIREMENTS_LIST: Kind = Kind(ffi::RESOURCE_REQUIREMENTS_LIST);
    /// A number of 64 bits, its lowest byte first.
    pub const QWORD: Kind = Kind(ffi::QWORD);

    fn name(self) -> Option<&'static str> {
        const NAMES: [&str; 12] = [
            "REG_NONE",
            "REG_SZ",
            "REG_EXPAND_SZ",
            "REG_BINARY",
            "REG_DWORD",
            "REG_DWORD_BIG_ENDIAN",
            "REG_LINK",
            "REG_MULTI_SZ",
            "REG_RESOURCE_LIST",
            "REG_FULL_RESOURCE_DESCRIPTOR",
            "REG_RESOURCE_REQUIREMENTS_LIST",
            "REG_QWORD",
        ];
        NAMES.get(usize::try_from(self.0).ok()?).copied()
    }
}

impl fmt::Display for Kind {
    /// The name that Windows has for the type, else its number.
    fn fmt(&self, text: &mut fmt::Formatter<'_>) -> fmt::Result {
        match self.name() {
            Some(name) => text.pad(name),
            None => self.0.fmt(text),
        }
    }
}

/// A value without its name: a type, and data of at most 1,048,576 bytes.
///
/// `From` makes values of numbers, texts and bytes, and `TryFrom<&Value>` is the way back. Texts
/// are UTF-16, the lower byte of each unit first.
///
/// ```
/// # use zugmeled::{Kind, Value};
/// let value = Value::from("a");
/// assert_eq!(value, Value::new(Kind::SZ, b"a\0\0\0"));
/// assert_eq!(String::try_from(&value)?, "a");
/// # Ok::<(), zugmeled::Error>(())
/// ```
#[derive(Clone, Debug, Default, PartialEq, Eq, Hash)]
pub struct Value {
    /// The type.
    pub kind: Kind,
    /// The data, as it is.
    pub bytes: Vec<u8>,
}

impl Value {
    /// A value of a type and data, which need not fit.
    pub fn new(kind: Kind, bytes: impl Into<Vec<u8>>) -> Value {
        Value {
            kind,
            bytes: bytes.into(),
        }
    }

    /// A text of a type, with a zero at its end.
    pub fn text(kind: Kind, text: &str) -> Value {
        let mut bytes = Vec::new();
        push_text(&mut bytes, text);
        Value { kind, bytes }
    }

    /// Texts, each with a zero at its end, and one more behind the last: of type
    /// [`Kind::MULTI_SZ`].
    ///
    /// Whoever reads them may take an empty text for the end of all.
    pub fn texts<T: AsRef<str>>(texts: &[T]) -> Value {
        let mut bytes = Vec::new();
        for text in texts {
            push_text(&mut bytes, text.as_ref());
        }
        bytes.extend([0, 0]);
        Value {
            kind: Kind::MULTI_SZ,
            bytes,
        }
    }

    /// The data, where the value is of one of these types.
    fn data_of(&self, kinds: &[Kind]) -> Result<&[u8]> {
        if kinds.contains(&self.kind) {
            Ok(&self.bytes)
        } else {
            Err(Status::INVALID_DATA.into())
        }
    }
}

impl From<u32> for Value {
    /// Of type [`Kind::DWORD`].
    fn from(number: u32) -> Value {
        Value::new(Kind::DWORD, number.to_le_bytes())
    }
}

impl From<u64> for Value {
    /// Of type [`Kind::QWORD`].
    fn from(number: u64) -> Value {
        Value::new(Kind::QWORD, number.to_le_bytes())
    }
}

impl From<&str> for Value {
    /// Of type [`Kind::SZ`].
    fn from(text: &str) -> Value {
        Value::text(Kind::SZ, text)
    }
}

impl From<&[&str]> for Value {
    /// Of type [`Kind::MULTI_SZ`].
    fn from(texts: &[&str]) -> Value {
        Value::texts(texts)
    }
}

impl<const COUNT: usize> From<[&str; COUNT]> for Value {
    /// Of type [`Kind::MULTI_SZ`].
    fn from(texts: [&str; COUNT]) -> Value {
        Value::texts(&texts)
    }
}

impl From<&[String]> for Value {
    /// Of type [`Kind::MULTI_SZ`].
    fn from(texts: &[String]) -> Value {
        Value::texts(texts)
    }
}

impl From<&[u8]> for Value {
    /// Of type [`Kind::BINARY`].
    fn from(bytes: &[u8]) -> Value {
        Value::new(Kind::BINARY, bytes)
    }
}

impl From<Vec<u8>> for Value {
    /// Of type [`Kind::BINARY`].
    fn from(bytes: Vec<u8>) -> Value {
        Value::new(Kind::BINARY, bytes)
    }
}

impl TryFrom<&Value> for u32 {
    type Error = Error;

    /// A number of 32 bits, in either order of bytes. [`Status::INVALID_DATA`] where the value is
    /// none.
    fn try_from(value: &Value) -> Result<u32> {
        let bytes = number(value.data_of(&[Kind::DWORD, Kind::DWORD_BIG_ENDIAN])?)?;
        Ok(match value.kind {
            Kind::DWORD => u32::from_le_bytes(bytes),
            _ => u32::from_be_bytes(bytes),
        })
    }
}

impl TryFrom<&Value> for u64 {
    type Error = Error;

    /// A number of 64 or 32 bits. [`Status::INVALID_DATA`] where the value is none.
    fn try_from(value: &Value) -> Result<u64> {
        match value.kind {
            Kind::QWORD => Ok(u64::from_le_bytes(number(&value.bytes)?)),
            _ => u32::try_from(value).map(u64::from),
        }
    }
}

impl TryFrom<&Value> for String {
    type Error = Error;

    /// The text before the first zero. [`Status::INVALID_DATA`] where the value is no text, or not
    /// of characters.
    ///
    /// A last odd byte is no character.
    fn try_from(value: &Value) -> Result<String> {
        let units = units(value.data_of(&[Kind::SZ, Kind::EXPAND_SZ, Kind::LINK])?);
        text(units.split(|&unit| unit == 0).next().unwrap_or_default())
    }
}

impl TryFrom<&Value> for Vec<String> {
    type Error = Error;

    /// All texts, empty ones too. [`Status::INVALID_DATA`] where the value isn't of texts, or one
    /// not of characters.
    ///
    /// A last odd byte is no character. The last text need not have an end, nor all of them
    /// together.
    fn try_from(value: &Value) -> Result<Vec<String>> {
        let units = units(value.data_of(&[Kind::MULTI_SZ])?);
        let mut texts: Vec<String> = without_end(&units)
            .split(|&unit| unit == 0)
            .map(text)
            .collect::<Result<_>>()?;
        // What is behind the last text's end is no text.
        if texts.last().is_some_and(String::is_empty) {
            texts.pop();
        }
        Ok(texts)
    }
}

impl TryFrom<&Value> for Vec<u8> {
    type Error = Error;

    /// The data. [`Status::INVALID_DATA`] where the value's type isn't [`Kind::BINARY`] or
    /// [`Kind::NONE`].
    fn try_from(value: &Value) -> Result<Vec<u8>> {
        value
            .data_of(&[Kind::BINARY, Kind::NONE])
            .map(<[u8]>::to_vec)
    }
}

fn push_text(bytes: &mut Vec<u8>, text: &str) {
    bytes.extend(text.encode_utf16().flat_map(u16::to_le_bytes));
    bytes.extend([0, 0]);
}

fn number<const SIZE: usize>(bytes: &[u8]) -> Result<[u8; SIZE]> {
    bytes.try_into().map_err(|_| Status::INVALID_DATA.into())
}

fn units(bytes: &[u8]) -> Vec<u16> {
    bytes
        .chunks_exact(2)
        .map(|unit| u16::from_le_bytes([unit[0], unit[1]]))
        .collect()
}

fn without_end(units: &[u16]) -> &[u16] {
    units.strip_suffix(&[0]).unwrap_or(units)
}

fn text(units: &[u16]) -> Result<String> {
    String::from_utf16(units).map_err(|_| Status::INVALID_DATA.into())
}
