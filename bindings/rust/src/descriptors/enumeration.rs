//! Enums and their values.

use super::{
    by_index, by_position, may_be_deprecated, named, nested, some, FileDescriptor,
    MessageDescriptor,
};
use crate::ffi;
use crate::kinds::Location;
use crate::pool::DescriptorPool;
use crate::shared::held;
use std::ops::RangeInclusive;

type Parent = EnumDescriptor;

/// An enum of a pool.
#[derive(Clone, PartialEq, Eq, Hash)]
pub struct EnumDescriptor {
    pool: DescriptorPool,
    index: u32,
}

by_index!(EnumDescriptor, ffi::ENUM);
named!(EnumDescriptor);
nested!(EnumDescriptor);
may_be_deprecated!(EnumDescriptor);

impl EnumDescriptor {
    fn info(&self) -> ffi::EnumInfo {
        held(self.pool.shared.raw.enumeration(self.index))
    }

    /// Its values, in the order of declaration.
    pub fn values(
        &self,
    ) -> impl ExactSizeIterator<Item = EnumValueDescriptor> + DoubleEndedIterator + '_ {
        (0..self.info().values as u32).map(move |position| EnumValueDescriptor::new(self, position))
    }

    /// Its first value, which a field of the enum has where nothing else is said.
    #[must_use]
    pub fn default_value(&self) -> EnumValueDescriptor {
        held(self.values().next())
    }

    /// The first value with a number.
    #[must_use]
    pub fn get_value(&self, number: i32) -> Option<EnumValueDescriptor> {
        let position = self
            .pool
            .shared
            .raw
            .enum_value_numbered(self.index, number)?;
        Some(EnumValueDescriptor::new(self, position))
    }

    /// The value with a name.
    #[must_use]
    pub fn get_value_by_name(&self, name: &str) -> Option<EnumValueDescriptor> {
        let position = self.pool.shared.raw.enum_value_named(self.index, name)?;
        Some(EnumValueDescriptor::new(self, position))
    }

    /// The ranges of numbers that it reserves, in the order of declaration.
    pub fn reserved_ranges(
        &self,
    ) -> impl ExactSizeIterator<Item = RangeInclusive<i32>> + DoubleEndedIterator + '_ {
        (0..self.info().reserved_ranges as u32).map(move |position| {
            let raw = &self.pool.shared.raw;
            let range = held(raw.enum_reserved_range(self.index, position));
            range.start..=range.end
        })
    }

    /// The names that it reserves, in the order of declaration.
    pub fn reserved_names(&self) -> impl ExactSizeIterator<Item = &str> + DoubleEndedIterator + '_ {
        let names = self.pool.shared.reserved_names(self.item());
        names.iter().map(|name| &**name)
    }

    /// Whether it has its values alone, and no other numbers: its file is not of proto3.
    #[must_use]
    pub fn is_closed(&self) -> bool {
        self.info().is_closed != 0
    }

    /// Whether two of its values may have one number.
    #[must_use]
    pub fn allows_alias(&self) -> bool {
        self.info().allow_alias != 0
    }
}

/// A value of an enum.
#[derive(Clone, PartialEq, Eq, Hash)]
pub struct EnumValueDescriptor {
    parent: EnumDescriptor,
    position: u32,
}

by_position!(EnumValueDescriptor, ffi::ENUM_VALUE, parent);
named!(EnumValueDescriptor);
may_be_deprecated!(EnumValueDescriptor);

impl EnumValueDescriptor {
    fn info(&self) -> ffi::EnumValueInfo {
        let raw = &self.parent_pool().shared.raw;
        held(raw.enum_value(self.parent.index() as u32, self.position))
    }

    /// The enum that it stands in.
    #[must_use]
    pub fn parent_enum(&self) -> &EnumDescriptor {
        &self.parent
    }

    /// Its number.
    #[must_use]
    pub fn number(&self) -> i32 {
        self.info().number
    }
}
