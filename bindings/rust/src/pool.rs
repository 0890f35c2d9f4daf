//! The pool.

use crate::changes::{Changes, Compatibility, Level};
use crate::descriptors::{
    EnumDescriptor, EnumValueDescriptor, ExtensionDescriptor, FieldDescriptor, FileDescriptor,
    MessageDescriptor, MethodDescriptor, OneofDescriptor, ServiceDescriptor,
};
use crate::faults::{DescriptorError, OutOfMemory};
use crate::ffi;
use crate::raw::{version, Ended, RawPool};
use crate::shared::Shared;
use std::fmt;
use std::hash::{Hash, Hasher};
use std::sync::Arc;

/// Linked files, and what they declare, by full name and by index.
///
/// A clone costs nothing: it shares what it was made of, as each descriptor does. When files are
/// added to a pool that is shared, it is copied first, so clones and descriptors keep what they had.
/// Two pools are equal where they share their files.
///
/// Pools and descriptors may be kept in structs and statics, and may be used by many threads at
/// once.
///
/// ```
/// fn may_be_kept_and_shared<T: Send + Sync + 'static>() {}
/// may_be_kept_and_shared::<protolink::DescriptorPool>();
/// may_be_kept_and_shared::<protolink::MessageDescriptor>();
/// ```
#[derive(Clone, Default)]
pub struct DescriptorPool {
    pub(crate) shared: Arc<Shared>,
}

/// How much a pool has of each kind that has indexes. It may get members, as the library may count
/// more.
#[derive(Debug, Clone, Copy, PartialEq, Eq, Hash)]
#[non_exhaustive]
pub struct Counts {
    /// Files.
    pub files: u32,
    /// Messages, nested ones too.
    pub messages: u32,
    /// Enums, nested ones too.
    pub enums: u32,
    /// Services.
    pub services: u32,
    /// Extensions, nested ones too.
    pub extensions: u32,
}

/// What became of the files that were to be linked. It may get members, as the library may count more.
#[derive(Debug, Clone, Copy, PartialEq, Eq, Hash)]
#[non_exhaustive]
pub struct Added {
    /// How many were linked: the pool lacked their names.
    pub files: u64,
    /// How many were passed over: the pool had a file of their name.
    pub passed_over: u64,
    /// How many of those differ from the pool's linked file, apart from their source info.
    pub differing: u64,
}

/// What a full name means.
#[derive(Debug, Clone, PartialEq, Eq, Hash)]
pub enum Definition {
    /// A package.
    Package,
    /// A message.
    Message(MessageDescriptor),
    /// A field of a message.
    Field(FieldDescriptor),
    /// A oneof of a message.
    Oneof(OneofDescriptor),
    /// A service.
    Service(ServiceDescriptor),
    /// A method of a service.
    Method(MethodDescriptor),
    /// An enum.
    Enum(EnumDescriptor),
    /// A value of an enum.
    EnumValue(EnumValueDescriptor),
    /// An extension.
    Extension(ExtensionDescriptor),
}

/// What a full name means, and where it is declared. It may get members, as there may be more to say
/// of the place.
#[derive(Debug, Clone, PartialEq, Eq, Hash)]
#[non_exhaustive]
pub struct Found {
    /// What it means.
    pub definition: Definition,
    /// The file that declares it; of a package, which several may declare, the first.
    pub file: FileDescriptor,
    /// The path of the name in the record of the file: numbers of fields, and positions from 0.
    pub path: Vec<i32>,
}

impl DescriptorPool {
    /// A pool without files.
    #[must_use]
    pub fn new() -> DescriptorPool {
        DescriptorPool::default()
    }

    /// A pool with the files of a `FileDescriptorSet`, linked in one batch.
    ///
    /// # Errors
    /// Why they are not linked.
    pub fn decode(bytes: impl AsRef<[u8]>) -> Result<DescriptorPool, DescriptorError> {
        let mut pool = DescriptorPool::new();
        pool.decode_file_descriptor_set(bytes)?;
        Ok(pool)
    }

    /// Links the files of a `FileDescriptorSet`, in one batch. Those whose names the pool has are
    /// passed over, also where they are others: the answer tells how many differ.
    ///
    /// # Errors
    /// Why they are not linked. The pool is then what it was.
    pub fn decode_file_descriptor_set(
        &mut self,
        bytes: impl AsRef<[u8]>,
    ) -> Result<Added, DescriptorError> {
        self.add(|raw| raw.add_set(bytes.as_ref()))
    }

    /// Links the file of a `FileDescriptorProto`, as a batch of its own. Where the pool has a file
    /// of its name, it is passed over.
    ///
    /// # Errors
    /// Why it is not linked. The pool is then what it was.
    pub fn decode_file_descriptor_proto(
        &mut self,
        bytes: impl AsRef<[u8]>,
    ) -> Result<Added, DescriptorError> {
        self.add(|raw| raw.add_file(bytes.as_ref()))
    }

    /// As [`decode_file_descriptor_set`](Self::decode_file_descriptor_set): a record is handed over
    /// as its bytes.
    ///
    /// # Errors
    /// As there.
    pub fn add_file_descriptor_set(
        &mut self,
        bytes: impl AsRef<[u8]>,
    ) -> Result<Added, DescriptorError> {
        self.decode_file_descriptor_set(bytes)
    }

    /// As [`decode_file_descriptor_proto`](Self::decode_file_descriptor_proto): a record is handed
    /// over as its bytes.
    ///
    /// # Errors
    /// As there.
    pub fn add_file_descriptor_proto(
        &mut self,
        bytes: impl AsRef<[u8]>,
    ) -> Result<Added, DescriptorError> {
        self.decode_file_descriptor_proto(bytes)
    }

    /// Links files that are each handed over as the bytes of its `FileDescriptorProto`, as gRPC's
    /// server reflection answers them, in one batch and in any order.
    ///
    /// # Errors
    /// Why they are not linked. The pool is then what it was.
    pub fn add_file_descriptor_protos<I>(&mut self, files: I) -> Result<Added, DescriptorError>
    where
        I: IntoIterator,
        I::Item: AsRef<[u8]>,
    {
        let (mut bytes, mut lens) = (Vec::new(), Vec::new());
        for file in files {
            bytes.extend_from_slice(file.as_ref());
            lens.push(file.as_ref().len());
        }
        self.add(|raw| raw.add_files(&bytes, &lens))
    }

    /// Links the files that a script of lines declares, in one batch. Its commands are passed over.
    ///
    /// # Errors
    /// Why they are not linked. The pool is then what it was.
    pub fn add_script(&mut self, script: impl AsRef<[u8]>) -> Result<Added, DescriptorError> {
        self.add(|raw| raw.add_script(script.as_ref()))
    }

    /// Links files. A pool that is shared is copied, and takes the place of the copied one where
    /// there are more files in it.
    fn add(&mut self, call: impl FnOnce(&mut RawPool) -> Ended) -> Result<Added, DescriptorError> {
        if let Some(shared) = Arc::get_mut(&mut self.shared) {
            let ended = shared.change(call);
            return answer(&shared.raw, ended);
        }
        let mut copy = self.shared.raw.try_clone()?;
        let ended = call(&mut copy);
        let added = answer(&copy, ended)?;
        if added.files > 0 {
            self.shared = Arc::new(Shared::new(copy));
        }
        Ok(added)
    }

    /// Sets how many faults are told at most where files break rules, from the next call on: a
    /// hundred where this was never called. Clones that are made later have the same limit.
    ///
    /// # Errors
    /// Where memory was refused. The limit stays then.
    pub fn limit_faults(&mut self, most: usize) -> Result<(), OutOfMemory> {
        if let Some(shared) = Arc::get_mut(&mut self.shared) {
            return shared.change(|raw| raw.limit_faults(most));
        }
        let mut copy = self.shared.raw.try_clone()?;
        copy.limit_faults(most)?;
        self.shared = Arc::new(Shared::new(copy));
        Ok(())
    }

    /// What the pool changes of an older one. Backward it is where a reader of its files reads
    /// otherwise, or not at all, what a writer of the older ones writes; forward, where a reader of
    /// the older ones does so with what a writer of its files writes. The higher levels have more.
    /// Of each direction the answer has at most as many changes as
    /// [`limit_faults`](Self::limit_faults) has set.
    ///
    /// ```
    /// # use protolink::{Compatibility, DescriptorPool, Level};
    /// let (mut older, mut new) = (DescriptorPool::new(), DescriptorPool::new());
    /// # let field = |kind| format!("field id 1 optional {kind} ~ ~\nend\n");
    /// # let script = |kind| format!("file a.proto\nmessage M\n{}end\n", field(kind));
    /// # older.add_script(script("int64"))?;
    /// # new.add_script(script("int32"))?;
    /// for change in &new.changes(&older, Level::Wire, Compatibility::Backward)? {
    ///     println!("{change}");
    /// }
    /// # let changes = new.changes(&older, Level::Wire, Compatibility::Backward)?;
    /// # assert_eq!(changes[0].code, "field-kind");
    /// # Ok::<(), Box<dyn std::error::Error>>(())
    /// ```
    ///
    /// # Errors
    /// Where memory was refused.
    pub fn changes(
        &self,
        older: &DescriptorPool,
        level: Level,
        compatibility: Compatibility,
    ) -> Result<Changes, OutOfMemory> {
        let (level, compatibility) = (level.number(), compatibility.number());
        let older = &older.shared.raw;
        let told = self.shared.raw.changes(older, level, compatibility)?;
        Ok(Changes::read(&told.unwrap_or_default()))
    }

    /// The linked files, as the bytes of one `FileDescriptorSet`.
    ///
    /// # Panics
    /// Where memory was refused; [`try_encode_to_vec`](Self::try_encode_to_vec) does not.
    #[must_use]
    pub fn encode_to_vec(&self) -> Vec<u8> {
        self.try_encode_to_vec().expect("the linked files")
    }

    /// The linked files, as the bytes of one `FileDescriptorSet`.
    ///
    /// # Errors
    /// Where memory was refused.
    pub fn try_encode_to_vec(&self) -> Result<Vec<u8>, OutOfMemory> {
        self.shared.raw.linked()
    }

    /// Writes the linked files, as the bytes of one `FileDescriptorSet`, to the end of what takes
    /// bytes, as a `Vec<u8>` does, and a `BytesMut` of the crate `bytes`.
    ///
    /// # Errors
    /// Where memory was refused. Nothing is written then. A buffer that can't grow does what it does
    /// at other times.
    pub fn encode(&self, buffer: &mut impl Extend<u8>) -> Result<(), OutOfMemory> {
        buffer.extend(self.try_encode_to_vec()?);
        Ok(())
    }

    /// The linked files in the order of linking, each as the bytes of its `FileDescriptorProto`.
    ///
    /// # Panics
    /// Where memory was refused.
    pub fn file_descriptor_protos(
        &self,
    ) -> impl ExactSizeIterator<Item = Vec<u8>> + DoubleEndedIterator + '_ {
        self.files().map(|file| file.encode_to_vec())
    }

    /// What a full name means, which may have one leading dot.
    #[must_use]
    pub fn find(&self, full_name: &str) -> Option<Found> {
        let (item, file) = self.shared.raw.find(full_name)?;
        Some(Found {
            definition: self.definition(item),
            file: FileDescriptor::new(self, file),
            path: self.shared.raw.find_path(full_name)?,
        })
    }

    fn definition(&self, item: ffi::Item) -> Definition {
        let ffi::Item {
            kind,
            index,
            position,
        } = item;
        let message = || MessageDescriptor::new(self, index);
        let enumeration = || EnumDescriptor::new(self, index);
        let service = || ServiceDescriptor::new(self, index);
        match kind {
            ffi::MESSAGE => Definition::Message(message()),
            ffi::FIELD => Definition::Field(FieldDescriptor::new(&message(), position)),
            ffi::ONEOF => Definition::Oneof(OneofDescriptor::new(&message(), position)),
            ffi::SERVICE => Definition::Service(service()),
            ffi::METHOD => Definition::Method(MethodDescriptor::new(&service(), position)),
            ffi::ENUM => Definition::Enum(enumeration()),
            ffi::ENUM_VALUE => {
                Definition::EnumValue(EnumValueDescriptor::new(&enumeration(), position))
            }
            ffi::EXTENSION => Definition::Extension(ExtensionDescriptor::new(self, index)),
            _ => Definition::Package,
        }
    }

    /// The message with a full name.
    #[must_use]
    pub fn get_message_by_name(&self, name: &str) -> Option<MessageDescriptor> {
        match self.definition(self.shared.raw.find(name)?.0) {
            Definition::Message(message) => Some(message),
            _ => None,
        }
    }

    /// The enum with a full name.
    #[must_use]
    pub fn get_enum_by_name(&self, name: &str) -> Option<EnumDescriptor> {
        match self.definition(self.shared.raw.find(name)?.0) {
            Definition::Enum(enumeration) => Some(enumeration),
            _ => None,
        }
    }

    /// The service with a full name.
    #[must_use]
    pub fn get_service_by_name(&self, name: &str) -> Option<ServiceDescriptor> {
        match self.definition(self.shared.raw.find(name)?.0) {
            Definition::Service(service) => Some(service),
            _ => None,
        }
    }

    /// The extension with a full name.
    #[must_use]
    pub fn get_extension_by_name(&self, name: &str) -> Option<ExtensionDescriptor> {
        match self.definition(self.shared.raw.find(name)?.0) {
            Definition::Extension(extension) => Some(extension),
            _ => None,
        }
    }

    /// The file with a name.
    #[must_use]
    pub fn get_file_by_name(&self, name: &str) -> Option<FileDescriptor> {
        let index = self.shared.raw.file_named(name)?;
        Some(FileDescriptor::new(self, index))
    }

    /// How much the pool has of each kind.
    #[must_use]
    pub fn counts(&self) -> Counts {
        let counts = self.shared.raw.counts();
        Counts {
            files: counts.files,
            messages: counts.messages,
            enums: counts.enums,
            services: counts.services,
            extensions: counts.extensions,
        }
    }

    /// The files, in the order of linking.
    pub fn files(
        &self,
    ) -> impl ExactSizeIterator<Item = FileDescriptor> + DoubleEndedIterator + '_ {
        (0..self.counts().files).map(move |index| FileDescriptor::new(self, index))
    }

    /// The messages, nested ones too, in the order of linking.
    pub fn all_messages(
        &self,
    ) -> impl ExactSizeIterator<Item = MessageDescriptor> + DoubleEndedIterator + '_ {
        (0..self.counts().messages).map(move |index| MessageDescriptor::new(self, index))
    }

    /// As [`all_messages`](Self::all_messages).
    pub fn messages(
        &self,
    ) -> impl ExactSizeIterator<Item = MessageDescriptor> + DoubleEndedIterator + '_ {
        self.all_messages()
    }

    /// The enums, nested ones too, in the order of linking.
    pub fn all_enums(
        &self,
    ) -> impl ExactSizeIterator<Item = EnumDescriptor> + DoubleEndedIterator + '_ {
        (0..self.counts().enums).map(move |index| EnumDescriptor::new(self, index))
    }

    /// The services, in the order of linking.
    pub fn services(
        &self,
    ) -> impl ExactSizeIterator<Item = ServiceDescriptor> + DoubleEndedIterator + '_ {
        (0..self.counts().services).map(move |index| ServiceDescriptor::new(self, index))
    }

    /// The extensions, nested ones too, in the order of linking.
    pub fn all_extensions(
        &self,
    ) -> impl ExactSizeIterator<Item = ExtensionDescriptor> + DoubleEndedIterator + '_ {
        (0..self.counts().extensions).map(move |index| ExtensionDescriptor::new(self, index))
    }

    /// The version of the linked library, as `0.3.0`.
    #[must_use]
    pub fn library_version() -> String {
        let version = version();
        let (major, minor, patch) = (version / 1_000_000, version / 1000 % 1000, version % 1000);
        format!("{major}.{minor}.{patch}")
    }
}

impl Added {
    fn of(added: ffi::Added) -> Added {
        Added {
            files: added.files,
            passed_over: added.passed_over,
            differing: added.differing,
        }
    }
}

/// How a call ended that was to link files.
fn answer(raw: &RawPool, ended: Ended) -> Result<Added, DescriptorError> {
    match ended {
        Ended::Done => Ok(Added::of(raw.added())),
        Ended::Refused => Err(DescriptorError::refused(&raw.report_json(), &raw.report())),
        Ended::Fault => Err(DescriptorError::unreadable(&raw.report_json())),
        Ended::TooMany => Err(DescriptorError::too_many(&raw.report_json())),
        Ended::OutOfMemory => Err(DescriptorError::OutOfMemory),
    }
}

impl PartialEq for DescriptorPool {
    fn eq(&self, other: &DescriptorPool) -> bool {
        Arc::ptr_eq(&self.shared, &other.shared)
    }
}

impl Eq for DescriptorPool {}

impl Hash for DescriptorPool {
    fn hash<H: Hasher>(&self, state: &mut H) {
        Arc::as_ptr(&self.shared).hash(state);
    }
}

impl fmt::Debug for DescriptorPool {
    fn fmt(&self, f: &mut fmt::Formatter<'_>) -> fmt::Result {
        f.debug_tuple("DescriptorPool")
            .field(&self.counts())
            .finish()
    }
}
