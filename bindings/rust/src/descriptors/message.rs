//! Messages.

use super::{
    by_index, may_be_deprecated, named, nested, some, EnumDescriptor, ExtensionDescriptor,
    FieldDescriptor, FileDescriptor, OneofDescriptor,
};
use crate::ffi;
use crate::kinds::Location;
use crate::pool::DescriptorPool;
use crate::shared::held;
use std::ops::Range;

/// A message of a pool.
#[derive(Clone, PartialEq, Eq, Hash)]
pub struct MessageDescriptor {
    pool: DescriptorPool,
    index: u32,
}

by_index!(MessageDescriptor, ffi::MESSAGE);
named!(MessageDescriptor);
nested!(MessageDescriptor);
may_be_deprecated!(MessageDescriptor);

impl MessageDescriptor {
    fn info(&self) -> ffi::MessageInfo {
        held(self.pool.shared.raw.message(self.index))
    }

    /// The indexes of the items of a kind that are declared in it.
    fn below(&self, kind: u32) -> impl ExactSizeIterator<Item = u32> + DoubleEndedIterator + '_ {
        let shared = &self.pool.shared;
        let file = shared.scope(ffi::MESSAGE, self.index).file;
        shared.below(kind, file).of(self.index)
    }

    /// Its fields, in the order of declaration.
    pub fn fields(
        &self,
    ) -> impl ExactSizeIterator<Item = FieldDescriptor> + DoubleEndedIterator + '_ {
        (0..self.info().fields as u32).map(move |position| FieldDescriptor::new(self, position))
    }

    /// Its oneofs, in the order of declaration, those of optional fields of proto3 too.
    pub fn oneofs(
        &self,
    ) -> impl ExactSizeIterator<Item = OneofDescriptor> + DoubleEndedIterator + '_ {
        (0..self.info().oneofs as u32).map(move |position| OneofDescriptor::new(self, position))
    }

    /// The messages that are declared in it, in the order of declaration.
    pub fn child_messages(
        &self,
    ) -> impl ExactSizeIterator<Item = MessageDescriptor> + DoubleEndedIterator + '_ {
        let indexes = self.below(ffi::MESSAGE);
        indexes.map(move |index| MessageDescriptor::new(&self.pool, index))
    }

    /// The enums that are declared in it, in the order of declaration.
    pub fn child_enums(
        &self,
    ) -> impl ExactSizeIterator<Item = EnumDescriptor> + DoubleEndedIterator + '_ {
        let indexes = self.below(ffi::ENUM);
        indexes.map(move |index| EnumDescriptor::new(&self.pool, index))
    }

    /// The extensions that are declared in it, whatever they extend, in the order of declaration.
    pub fn child_extensions(
        &self,
    ) -> impl ExactSizeIterator<Item = ExtensionDescriptor> + DoubleEndedIterator + '_ {
        let indexes = self.below(ffi::EXTENSION);
        indexes.map(move |index| ExtensionDescriptor::new(&self.pool, index))
    }

    /// The extensions of the pool that extend it, in the order of linking.
    pub fn extensions(
        &self,
    ) -> impl ExactSizeIterator<Item = ExtensionDescriptor> + DoubleEndedIterator + '_ {
        (0..self.info().extensions as u32).map(move |position| {
            let extension = self.pool.shared.raw.message_extension(self.index, position);
            ExtensionDescriptor::new(&self.pool, held(extension))
        })
    }

    /// Whether it is the entry of a map, which `protoc` makes for a field that is one.
    #[must_use]
    pub fn is_map_entry(&self) -> bool {
        self.info().is_map_entry != 0
    }

    /// Of the entry of a map its key: the field with the number 1.
    ///
    /// # Panics
    /// Where it is no entry of a map, or has no such field.
    #[must_use]
    pub fn map_entry_key_field(&self) -> FieldDescriptor {
        let key = some(self.info().map_key);
        FieldDescriptor::new(self, key.expect("the key of the entry of a map"))
    }

    /// Of the entry of a map its value: the field with the number 2.
    ///
    /// # Panics
    /// Where it is no entry of a map, or has no such field.
    #[must_use]
    pub fn map_entry_value_field(&self) -> FieldDescriptor {
        let value = some(self.info().map_value);
        FieldDescriptor::new(self, value.expect("the value of the entry of a map"))
    }

    /// Whether its options say that it is a message set on the wire.
    #[must_use]
    pub fn is_message_set(&self) -> bool {
        self.info().is_message_set != 0
    }

    /// The ranges of numbers that it reserves, in the order of declaration.
    pub fn reserved_ranges(
        &self,
    ) -> impl ExactSizeIterator<Item = Range<u32>> + DoubleEndedIterator + '_ {
        (0..self.info().reserved_ranges as u32).map(move |position| {
            let raw = &self.pool.shared.raw;
            range(held(raw.message_reserved_range(self.index, position)))
        })
    }

    /// The names that it reserves, in the order of declaration.
    pub fn reserved_names(&self) -> impl ExactSizeIterator<Item = &str> + DoubleEndedIterator + '_ {
        let names = self.pool.shared.reserved_names(self.item());
        names.iter().map(|name| &**name)
    }

    /// The ranges of numbers that it leaves to extensions, in the order of declaration.
    pub fn extension_ranges(
        &self,
    ) -> impl ExactSizeIterator<Item = Range<u32>> + DoubleEndedIterator + '_ {
        (0..self.info().extension_ranges as u32).map(move |position| {
            let raw = &self.pool.shared.raw;
            range(held(raw.extension_range(self.index, position)))
        })
    }

    /// The field with a number.
    #[must_use]
    pub fn get_field(&self, number: u32) -> Option<FieldDescriptor> {
        let position = self.pool.shared.raw.field_numbered(self.index, number)?;
        Some(FieldDescriptor::new(self, position))
    }

    /// The field with a name.
    #[must_use]
    pub fn get_field_by_name(&self, name: &str) -> Option<FieldDescriptor> {
        let position = self.pool.shared.raw.field_named(self.index, name)?;
        Some(FieldDescriptor::new(self, position))
    }

    /// The field with a JSON name. Those to which one was given come first, as `protoc` gives it to
    /// all, and then the others.
    #[must_use]
    pub fn get_field_by_json_name(&self, json_name: &str) -> Option<FieldDescriptor> {
        let raw = &self.pool.shared.raw;
        match raw.field_json_named(self.index, json_name) {
            Some(position) => Some(FieldDescriptor::new(self, position)),
            None => self.fields().find(|field| field.json_name() == json_name),
        }
    }

    /// The extension of this message with a number.
    #[must_use]
    pub fn get_extension(&self, number: u32) -> Option<ExtensionDescriptor> {
        let index = self
            .pool
            .shared
            .raw
            .extension_numbered(self.index, number)?;
        Some(ExtensionDescriptor::new(&self.pool, index))
    }

    /// The extension of this message with a full name.
    #[must_use]
    pub fn get_extension_by_full_name(&self, name: &str) -> Option<ExtensionDescriptor> {
        let extension = self.pool.get_extension_by_name(name)?;
        Some(extension).filter(|extension| extension.containing_message() == *self)
    }

    /// The extension of this message with a JSON name: its full name in square brackets.
    #[must_use]
    pub fn get_extension_by_json_name(&self, name: &str) -> Option<ExtensionDescriptor> {
        self.get_extension_by_full_name(name.strip_prefix('[')?.strip_suffix(']')?)
    }
}

/// A range of numbers of fields. Numbers below 0 are none.
fn range(told: ffi::Range) -> Range<u32> {
    told.start.max(0) as u32..told.end.max(0) as u32
}
