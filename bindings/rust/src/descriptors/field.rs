//! Fields of messages, and oneofs.

use super::{
    by_position, may_be_deprecated, named, some, typed, FileDescriptor, MessageDescriptor,
};
use crate::ffi;
use crate::kinds::{Cardinality, Kind, Location, Value};
use crate::pool::DescriptorPool;
use crate::shared::held;

type Parent = MessageDescriptor;

/// A field of a message.
#[derive(Clone, PartialEq, Eq, Hash)]
pub struct FieldDescriptor {
    message: MessageDescriptor,
    position: u32,
}

by_position!(FieldDescriptor, ffi::FIELD, message);
named!(FieldDescriptor);
typed!(FieldDescriptor);
may_be_deprecated!(FieldDescriptor);

impl FieldDescriptor {
    fn info(&self) -> ffi::FieldInfo {
        let raw = &self.parent_pool().shared.raw;
        held(raw.field(self.message.index() as u32, self.position))
    }

    /// The message that it stands in.
    #[must_use]
    pub fn parent_message(&self) -> &MessageDescriptor {
        &self.message
    }

    /// Its JSON name: that which was given, as `protoc` gives it to all, else its name in camel
    /// case.
    #[must_use]
    pub fn json_name(&self) -> &str {
        self.parent_pool().shared.json_name(self.item())
    }

    /// The oneof that it is in, if any.
    #[must_use]
    pub fn containing_oneof(&self) -> Option<OneofDescriptor> {
        Some(OneofDescriptor::new(
            &self.message,
            some(self.info().oneof)?,
        ))
    }
}

/// A oneof of a message.
#[derive(Clone, PartialEq, Eq, Hash)]
pub struct OneofDescriptor {
    message: MessageDescriptor,
    position: u32,
}

by_position!(OneofDescriptor, ffi::ONEOF, message);
named!(OneofDescriptor);

impl OneofDescriptor {
    fn info(&self) -> ffi::OneofInfo {
        let raw = &self.parent_pool().shared.raw;
        held(raw.oneof(self.message.index() as u32, self.position))
    }

    /// The message that it stands in.
    #[must_use]
    pub fn parent_message(&self) -> &MessageDescriptor {
        &self.message
    }

    /// Whether it was made for a field that is optional by word in proto3, its only one.
    #[must_use]
    pub fn is_synthetic(&self) -> bool {
        self.info().is_synthetic != 0
    }

    /// Its fields, in the order of declaration.
    pub fn fields(
        &self,
    ) -> impl ExactSizeIterator<Item = FieldDescriptor> + DoubleEndedIterator + '_ {
        (0..self.info().fields as u32).map(move |position| {
            let raw = &self.parent_pool().shared.raw;
            let field = raw.oneof_field(self.message.index() as u32, self.position, position);
            FieldDescriptor::new(&self.message, held(field))
        })
    }
}
