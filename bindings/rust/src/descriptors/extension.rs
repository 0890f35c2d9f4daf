//! Extensions.

use super::{
    by_index, may_be_deprecated, named, nested, some, typed, FileDescriptor, MessageDescriptor,
};
use crate::ffi;
use crate::kinds::{Cardinality, Kind, Location, Value};
use crate::pool::DescriptorPool;
use crate::shared::held;

/// An extension of a pool: a field of a message that is not declared in it.
#[derive(Clone, PartialEq, Eq, Hash)]
pub struct ExtensionDescriptor {
    pool: DescriptorPool,
    index: u32,
}

by_index!(ExtensionDescriptor, ffi::EXTENSION);
named!(ExtensionDescriptor);
nested!(ExtensionDescriptor);
typed!(ExtensionDescriptor);
may_be_deprecated!(ExtensionDescriptor);

impl ExtensionDescriptor {
    fn info(&self) -> ffi::ExtensionInfo {
        held(self.pool.shared.raw.extension(self.index))
    }

    /// Its JSON name: the full name in square brackets.
    #[must_use]
    pub fn json_name(&self) -> &str {
        self.pool.shared.json_name(self.item())
    }

    /// The message that it extends.
    #[must_use]
    pub fn containing_message(&self) -> MessageDescriptor {
        MessageDescriptor::new(&self.pool, self.info().extendee)
    }
}
