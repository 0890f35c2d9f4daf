//! Files.

use super::{EnumDescriptor, ExtensionDescriptor, MessageDescriptor, ServiceDescriptor};
use crate::faults::OutOfMemory;
use crate::ffi;
use crate::kinds::Syntax;
use crate::pool::DescriptorPool;
use crate::records::public_dependencies;
use crate::shared::held;
use std::fmt;

/// A file of a pool.
#[derive(Clone, PartialEq, Eq, Hash)]
pub struct FileDescriptor {
    pool: DescriptorPool,
    index: u32,
}

impl FileDescriptor {
    pub(crate) fn new(pool: &DescriptorPool, index: u32) -> FileDescriptor {
        FileDescriptor {
            pool: pool.clone(),
            index,
        }
    }

    /// The pool that has it.
    #[must_use]
    pub fn parent_pool(&self) -> &DescriptorPool {
        &self.pool
    }

    /// Its index in the pool, from 0 in the order of linking.
    #[must_use]
    pub fn index(&self) -> usize {
        self.index as usize
    }

    fn info(&self) -> ffi::FileInfo {
        held(self.pool.shared.raw.file(self.index))
    }

    /// Its name, as `shop/order.proto`.
    #[must_use]
    pub fn name(&self) -> &str {
        self.pool.shared.file_name(self.index)
    }

    /// Its package, or an empty text.
    #[must_use]
    pub fn package_name(&self) -> &str {
        self.pool.shared.file_package(self.index)
    }

    /// The version of the language in which it is written.
    #[must_use]
    pub fn syntax(&self) -> Syntax {
        Syntax::new(self.info().syntax)
    }

    /// The files that it imports, in the order of its imports.
    pub fn dependencies(
        &self,
    ) -> impl ExactSizeIterator<Item = FileDescriptor> + DoubleEndedIterator + '_ {
        (0..self.info().imports as u32).map(move |position| {
            let imported = self.pool.shared.raw.import(self.index, position);
            FileDescriptor::new(&self.pool, held(imported))
        })
    }

    /// The files that it imports publicly.
    ///
    /// # Panics
    /// Where memory was refused.
    pub fn public_dependencies(
        &self,
    ) -> impl ExactSizeIterator<Item = FileDescriptor> + DoubleEndedIterator + '_ {
        let positions = public_dependencies(&self.encode_to_vec());
        positions.into_iter().map(move |position| {
            let imported = self.pool.shared.raw.import(self.index, position);
            FileDescriptor::new(&self.pool, held(imported))
        })
    }

    /// The messages that are declared in it, and in no other message, in the order of declaration.
    pub fn messages(
        &self,
    ) -> impl ExactSizeIterator<Item = MessageDescriptor> + DoubleEndedIterator + '_ {
        let indexes = self
            .pool
            .shared
            .below(ffi::MESSAGE, self.index)
            .of(ffi::NONE);
        indexes.map(move |index| MessageDescriptor::new(&self.pool, index))
    }

    /// The enums that are declared in it, and in no message, in the order of declaration.
    pub fn enums(
        &self,
    ) -> impl ExactSizeIterator<Item = EnumDescriptor> + DoubleEndedIterator + '_ {
        let indexes = self.pool.shared.below(ffi::ENUM, self.index).of(ffi::NONE);
        indexes.map(move |index| EnumDescriptor::new(&self.pool, index))
    }

    /// The extensions that are declared in it, and in no message, in the order of declaration.
    pub fn extensions(
        &self,
    ) -> impl ExactSizeIterator<Item = ExtensionDescriptor> + DoubleEndedIterator + '_ {
        let indexes = self
            .pool
            .shared
            .below(ffi::EXTENSION, self.index)
            .of(ffi::NONE);
        indexes.map(move |index| ExtensionDescriptor::new(&self.pool, index))
    }

    /// The services that are declared in it, in the order of declaration.
    pub fn services(
        &self,
    ) -> impl ExactSizeIterator<Item = ServiceDescriptor> + DoubleEndedIterator + '_ {
        let indexes = self
            .pool
            .shared
            .below(ffi::SERVICE, self.index)
            .of(ffi::NONE);
        indexes.map(move |index| ServiceDescriptor::new(&self.pool, index))
    }

    /// Whether its options say that it is deprecated.
    #[must_use]
    pub fn is_deprecated(&self) -> bool {
        self.info().is_deprecated != 0
    }

    /// Its options, as the bytes of a `FileOptions`, also those that the library does not read.
    /// Where it has none, there are no bytes.
    ///
    /// # Panics
    /// Where memory was refused.
    #[must_use]
    pub fn options(&self) -> Vec<u8> {
        let options = self.pool.shared.raw.file_options(self.index);
        held(options.expect("the options"))
    }

    /// The linked file, as the bytes of its `FileDescriptorProto`.
    ///
    /// # Panics
    /// Where memory was refused; [`try_encode_to_vec`](Self::try_encode_to_vec) does not.
    #[must_use]
    pub fn encode_to_vec(&self) -> Vec<u8> {
        self.try_encode_to_vec().expect("the linked file")
    }

    /// The linked file, as the bytes of its `FileDescriptorProto`.
    ///
    /// # Errors
    /// Where memory was refused.
    pub fn try_encode_to_vec(&self) -> Result<Vec<u8>, OutOfMemory> {
        Ok(held(self.pool.shared.raw.linked_file(self.index)?))
    }

    /// Writes the linked file, as the bytes of its `FileDescriptorProto`, to the end of what takes
    /// bytes, as [`DescriptorPool::encode`] does.
    ///
    /// # Errors
    /// As there.
    pub fn encode(&self, buffer: &mut impl Extend<u8>) -> Result<(), OutOfMemory> {
        buffer.extend(self.try_encode_to_vec()?);
        Ok(())
    }

    /// As [`encode_to_vec`](Self::encode_to_vec): a record is handed out as its bytes.
    ///
    /// # Panics
    /// As there.
    #[must_use]
    pub fn file_descriptor_proto(&self) -> Vec<u8> {
        self.encode_to_vec()
    }
}

impl fmt::Debug for FileDescriptor {
    fn fmt(&self, f: &mut fmt::Formatter<'_>) -> fmt::Result {
        f.debug_tuple("FileDescriptor").field(&self.name()).finish()
    }
}
