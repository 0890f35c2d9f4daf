//! Linked protobuf descriptions, by a linker whose promises are proved.
//!
//! A [`DescriptorPool`] takes in descriptor sets, as `protoc --include_imports -o FILE` writes
//! them, gives every declaration a full name and an index, finds what each type name means, and
//! refuses what breaks the rules of the language, with the faults as data. After a refusal the pool
//! is what it was. Names of calls are those of `prost-reflect` where they do the same.
//!
//! ```
//! use protolink::{DescriptorError, DescriptorPool};
//!
//! # let set = b"\x0a\x24\x0a\x07a.proto\x12\x04shop\x22\x13\x0a\x05Order\x12\x0a\
//! #     \x0a\x02id\x18\x01\x20\x01\x28\x05";
//! let mut pool = DescriptorPool::new();
//! match pool.decode_file_descriptor_set(set) {
//!     Ok(added) => println!("{} files, {} passed over", added.files, added.passed_over),
//!     Err(DescriptorError::Refused(faults)) => {
//!         for fault in &faults {
//!             eprintln!("{fault}");
//!         }
//!     }
//!     Err(other) => return Err(other.into()),
//! }
//! let order = pool.get_message_by_name("shop.Order").expect("it is in the set");
//! for field in order.fields() {
//!     println!("{} = {}: {}", field.name(), field.number(), field.kind());
//! }
//! # assert_eq!(order.get_field(1).unwrap().name(), "id");
//! # Ok::<(), Box<dyn std::error::Error>>(())
//! ```
//!
//! The linker itself is `libprotolink.a`, whose calls are proved for all arguments that their types
//! allow. What is trusted besides is this crate: its declarations of these calls, and its reading
//! of what they write.

#![warn(missing_docs)]

mod changes;
mod descriptors;
mod faults;
mod ffi;
mod json;
mod kinds;
mod lists;
mod once;
mod pool;
mod raw;
mod records;
mod shared;

pub use changes::{Change, Changes, Compatibility, Direction, Level};
pub use descriptors::{
    EnumDescriptor, EnumValueDescriptor, ExtensionDescriptor, FieldDescriptor, FileDescriptor,
    MessageDescriptor, MethodDescriptor, OneofDescriptor, ServiceDescriptor,
};
pub use faults::{DescriptorError, Fault, Faults, OutOfMemory, Place};
pub use kinds::{Cardinality, Kind, Location, Syntax, Value};
pub use pool::{Added, Counts, Definition, DescriptorPool, Found};

/// The code of `README.md`, which is compiled with the tests.
#[cfg(doctest)]
#[doc = include_str!("../README.md")]
struct Readme;
