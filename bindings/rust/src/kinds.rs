//! What fields are: types, labels, default values.

use crate::descriptors::{EnumDescriptor, MessageDescriptor};
use crate::pool::DescriptorPool;
use std::fmt;

/// The version of the language in which a file is written.
#[derive(Debug, Clone, Copy, PartialEq, Eq, Hash)]
pub enum Syntax {
    /// `proto2`, also where a file says nothing.
    Proto2,
    /// `proto3`.
    Proto3,
}

impl Syntax {
    pub(crate) fn new(number: u32) -> Syntax {
        match number {
            3 => Syntax::Proto3,
            _ => Syntax::Proto2,
        }
    }
}

/// The word of a `.proto` file: `proto2` or `proto3`.
impl fmt::Display for Syntax {
    fn fmt(&self, f: &mut fmt::Formatter<'_>) -> fmt::Result {
        f.pad(match self {
            Syntax::Proto2 => "proto2",
            Syntax::Proto3 => "proto3",
        })
    }
}

/// How often a field stands in a message.
#[derive(Debug, Clone, Copy, PartialEq, Eq, PartialOrd, Ord, Hash)]
pub enum Cardinality {
    /// At most once.
    Optional,
    /// Once.
    Required,
    /// Any number of times.
    Repeated,
}

impl Cardinality {
    pub(crate) fn new(number: u32) -> Cardinality {
        match number {
            2 => Cardinality::Required,
            3 => Cardinality::Repeated,
            _ => Cardinality::Optional,
        }
    }
}

/// The word of a `.proto` file: `optional`, `required` or `repeated`.
impl fmt::Display for Cardinality {
    fn fmt(&self, f: &mut fmt::Formatter<'_>) -> fmt::Result {
        f.pad(match self {
            Cardinality::Optional => "optional",
            Cardinality::Required => "required",
            Cardinality::Repeated => "repeated",
        })
    }
}

/// The type of a field. A group is a message.
///
/// A `match` over all kinds needs no arm for others, since protobuf gets no more of them.
///
/// ```
/// use protolink::Kind;
///
/// fn rust_type(kind: &Kind) -> &str {
///     match kind {
///         Kind::Double => "f64",
///         Kind::Float => "f32",
///         Kind::Int32 | Kind::Sint32 | Kind::Sfixed32 => "i32",
///         Kind::Int64 | Kind::Sint64 | Kind::Sfixed64 => "i64",
///         Kind::Uint32 | Kind::Fixed32 => "u32",
///         Kind::Uint64 | Kind::Fixed64 => "u64",
///         Kind::Bool => "bool",
///         Kind::String => "String",
///         Kind::Bytes => "Vec<u8>",
///         Kind::Message(message) => message.name(),
///         Kind::Enum(enumeration) => enumeration.name(),
///     }
/// }
/// # assert_eq!(rust_type(&Kind::Sint64), "i64");
/// ```
#[derive(Debug, Clone, PartialEq, Eq, Hash)]
#[allow(missing_docs)]
pub enum Kind {
    Double,
    Float,
    Int32,
    Int64,
    Uint32,
    Uint64,
    Sint32,
    Sint64,
    Fixed32,
    Fixed64,
    Sfixed32,
    Sfixed64,
    Bool,
    String,
    Bytes,
    Message(MessageDescriptor),
    Enum(EnumDescriptor),
}

/// The numbers of `FieldDescriptorProto.Type`, but for those of messages and enums.
pub(crate) const GROUP: u32 = 10;

impl Kind {
    pub(crate) fn new(pool: &DescriptorPool, kind: u32, index: u32) -> Kind {
        match kind {
            1 => Kind::Double,
            2 => Kind::Float,
            3 => Kind::Int64,
            4 => Kind::Uint64,
            5 => Kind::Int32,
            6 => Kind::Fixed64,
            7 => Kind::Fixed32,
            8 => Kind::Bool,
            9 => Kind::String,
            GROUP | 11 => Kind::Message(MessageDescriptor::new(pool, index)),
            12 => Kind::Bytes,
            13 => Kind::Uint32,
            14 => Kind::Enum(EnumDescriptor::new(pool, index)),
            15 => Kind::Sfixed32,
            16 => Kind::Sfixed64,
            17 => Kind::Sint32,
            18 => Kind::Sint64,
            other => unreachable!("the library tells no type {other}"),
        }
    }

    /// The message, where it is one.
    #[must_use]
    pub fn as_message(&self) -> Option<&MessageDescriptor> {
        match self {
            Kind::Message(message) => Some(message),
            _ => None,
        }
    }

    /// The enum, where it is one.
    #[must_use]
    pub fn as_enum(&self) -> Option<&EnumDescriptor> {
        match self {
            Kind::Enum(enumeration) => Some(enumeration),
            _ => None,
        }
    }

    /// Whether a repeated field of the type may have its values in one run of bytes.
    #[must_use]
    pub fn is_packable(&self) -> bool {
        !matches!(self, Kind::String | Kind::Bytes | Kind::Message(_))
    }

    /// The value of a field that is not set and to which no default was given.
    #[must_use]
    pub fn default_value(&self) -> Value {
        match self {
            Kind::Double => Value::F64(0.0),
            Kind::Float => Value::F32(0.0),
            Kind::Int32 | Kind::Sint32 | Kind::Sfixed32 => Value::I32(0),
            Kind::Int64 | Kind::Sint64 | Kind::Sfixed64 => Value::I64(0),
            Kind::Uint32 | Kind::Fixed32 => Value::U32(0),
            Kind::Uint64 | Kind::Fixed64 => Value::U64(0),
            Kind::Bool => Value::Bool(false),
            Kind::String => Value::String(String::new()),
            Kind::Bytes => Value::Bytes(Vec::new()),
            Kind::Message(message) => Value::Message(message.clone()),
            Kind::Enum(enumeration) => Value::EnumNumber(enumeration.default_value().number()),
        }
    }

    /// A default as the library tells it. The text of a `float` or a `double` is one of any kind.
    pub(crate) fn told_value(&self, told: Vec<u8>) -> Option<Value> {
        let text = |told| String::from_utf8(told).ok();
        Some(match self {
            Kind::Bytes => Value::Bytes(told),
            Kind::String => Value::String(text(told)?),
            Kind::Double => Value::F64(text(told)?.parse().unwrap_or(f64::NAN)),
            Kind::Float => Value::F32(text(told)?.parse().unwrap_or(f32::NAN)),
            Kind::Bool => Value::Bool(told == b"true"),
            Kind::Enum(_) => Value::EnumNumber(text(told)?.parse().ok()?),
            Kind::Int32 | Kind::Sint32 | Kind::Sfixed32 => Value::I32(text(told)?.parse().ok()?),
            Kind::Int64 | Kind::Sint64 | Kind::Sfixed64 => Value::I64(text(told)?.parse().ok()?),
            Kind::Uint32 | Kind::Fixed32 => Value::U32(text(told)?.parse().ok()?),
            Kind::Uint64 | Kind::Fixed64 => Value::U64(text(told)?.parse().ok()?),
            Kind::Message(_) => return None,
        })
    }
}

/// The word of a `.proto` file, as `int32`. Of a message or an enum it is the full name.
impl fmt::Display for Kind {
    fn fmt(&self, f: &mut fmt::Formatter<'_>) -> fmt::Result {
        f.pad(match self {
            Kind::Double => "double",
            Kind::Float => "float",
            Kind::Int32 => "int32",
            Kind::Int64 => "int64",
            Kind::Uint32 => "uint32",
            Kind::Uint64 => "uint64",
            Kind::Sint32 => "sint32",
            Kind::Sint64 => "sint64",
            Kind::Fixed32 => "fixed32",
            Kind::Fixed64 => "fixed64",
            Kind::Sfixed32 => "sfixed32",
            Kind::Sfixed64 => "sfixed64",
            Kind::Bool => "bool",
            Kind::String => "string",
            Kind::Bytes => "bytes",
            Kind::Message(message) => message.full_name(),
            Kind::Enum(enumeration) => enumeration.full_name(),
        })
    }
}

/// Where something stands in its source, and the comments there, as `SourceCodeInfo.Location` of
/// descriptor.proto has them. It may get members, as that message may.
#[derive(Debug, Clone, PartialEq, Eq, Hash, Default)]
#[non_exhaustive]
pub struct Location {
    /// The path in the record of the file.
    pub path: Vec<i32>,
    /// The line and the column at which it begins, the line in which it ends, and the column behind
    /// its end, all from 0. Where it ends in its first line, the second line is left out.
    pub span: Vec<i32>,
    /// The comment right before it.
    pub leading_comments: Option<String>,
    /// The comment right behind it.
    pub trailing_comments: Option<String>,
    /// The comments before it that stand by themselves.
    pub leading_detached_comments: Vec<String>,
}

/// The value of a field, as default values are.
#[derive(Debug, Clone, PartialEq)]
pub enum Value {
    /// A value of `bool`.
    Bool(bool),
    /// A value of `int32`, `sint32` or `sfixed32`.
    I32(i32),
    /// A value of `int64`, `sint64` or `sfixed64`.
    I64(i64),
    /// A value of `uint32` or `fixed32`.
    U32(u32),
    /// A value of `uint64` or `fixed64`.
    U64(u64),
    /// A value of `float`.
    F32(f32),
    /// A value of `double`.
    F64(f64),
    /// A value of `string`.
    String(String),
    /// A value of `bytes`.
    Bytes(Vec<u8>),
    /// The number of a value of an enum.
    EnumNumber(i32),
    /// A message in which nothing is set.
    Message(MessageDescriptor),
    /// The values of a repeated field, and of one that is a map its entries.
    List(Vec<Value>),
}

/// Each answers what a value is made of, where it is of that kind.
macro_rules! as_kind {
    ($($call:ident: $variant:ident -> $type:ty),* $(,)?) => {
        impl Value {$(
            #[doc = concat!("What it is made of, where it is a `Value::", stringify!($variant), "`.")]
            #[must_use]
            pub fn $call(&self) -> Option<$type> {
                match self {
                    Value::$variant(value) => Some(*value),
                    _ => None,
                }
            }
        )*}
    };
}

as_kind!(
    as_bool: Bool -> bool,
    as_i32: I32 -> i32,
    as_i64: I64 -> i64,
    as_u32: U32 -> u32,
    as_u64: U64 -> u64,
    as_f32: F32 -> f32,
    as_f64: F64 -> f64,
    as_enum_number: EnumNumber -> i32,
);

impl Value {
    /// The text, where it is one.
    #[must_use]
    pub fn as_str(&self) -> Option<&str> {
        match self {
            Value::String(text) => Some(text),
            _ => None,
        }
    }

    /// The bytes, where it has bytes.
    #[must_use]
    pub fn as_bytes(&self) -> Option<&[u8]> {
        match self {
            Value::Bytes(bytes) => Some(bytes),
            _ => None,
        }
    }

    /// The values, where it is a list.
    #[must_use]
    pub fn as_list(&self) -> Option<&[Value]> {
        match self {
            Value::List(values) => Some(values),
            _ => None,
        }
    }
}
