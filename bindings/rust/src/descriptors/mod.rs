//! What a pool has: files, messages and the others. Each is an index in a pool that it shares.

mod enumeration;
mod extension;
mod field;
mod file;
mod message;
mod service;

pub use enumeration::{EnumDescriptor, EnumValueDescriptor};
pub use extension::ExtensionDescriptor;
pub use field::{FieldDescriptor, OneofDescriptor};
pub use file::FileDescriptor;
pub use message::MessageDescriptor;
pub use service::{MethodDescriptor, ServiceDescriptor};

use crate::ffi;

/// An index that is none in the library.
fn some(index: u32) -> Option<u32> {
    if index == ffi::NONE {
        None
    } else {
        Some(index)
    }
}

/// What has an index in the pool: it is told by the pool and the index.
macro_rules! by_index {
    ($descriptor:ident, $kind:path) => {
        impl $descriptor {
            pub(crate) fn new(pool: &DescriptorPool, index: u32) -> $descriptor {
                $descriptor {
                    pool: pool.clone(),
                    index,
                }
            }

            fn item(&self) -> ffi::Item {
                ffi::Item {
                    kind: $kind,
                    index: self.index,
                    position: 0,
                }
            }

            /// Its index in the pool, from 0 in the order of linking.
            #[must_use]
            pub fn index(&self) -> usize {
                self.index as usize
            }

            /// The pool that has it.
            #[must_use]
            pub fn parent_pool(&self) -> &DescriptorPool {
                &self.pool
            }

            /// The file that declares it.
            #[must_use]
            pub fn parent_file(&self) -> FileDescriptor {
                FileDescriptor::new(&self.pool, self.info().file)
            }

            /// The package of its file, or an empty text.
            #[must_use]
            pub fn package_name(&self) -> &str {
                self.pool.shared.file_package(self.info().file)
            }
        }
    };
}

/// What is a part of another: it is told by that and by its position.
macro_rules! by_position {
    ($descriptor:ident, $kind:path, $parent:ident) => {
        impl $descriptor {
            pub(crate) fn new($parent: &Parent, position: u32) -> $descriptor {
                $descriptor {
                    $parent: $parent.clone(),
                    position,
                }
            }

            fn item(&self) -> ffi::Item {
                ffi::Item {
                    kind: $kind,
                    index: self.$parent.index() as u32,
                    position: self.position,
                }
            }

            #[doc = concat!("Its position in the ", stringify!($parent), ", from 0 in the order of declaration.")]
            #[must_use]
            pub fn index(&self) -> usize {
                self.position as usize
            }

            /// The pool that has it.
            #[must_use]
            pub fn parent_pool(&self) -> &DescriptorPool {
                self.$parent.parent_pool()
            }

            /// The file that declares it.
            #[must_use]
            pub fn parent_file(&self) -> FileDescriptor {
                self.$parent.parent_file()
            }
        }
    };
}

/// What has a name. It is shown by its full name.
macro_rules! named {
    ($descriptor:ident) => {
        impl $descriptor {
            /// Its name, without the scope.
            #[must_use]
            pub fn name(&self) -> &str {
                self.parent_pool().shared.name(self.item())
            }

            /// Its full name, without a leading dot.
            #[must_use]
            pub fn full_name(&self) -> &str {
                self.parent_pool().shared.full_name(self.item())
            }

            /// Where it is declared in the record of its file: numbers of fields of
            /// `FileDescriptorProto`, and positions from 0.
            #[must_use]
            pub fn path(&self) -> &[i32] {
                self.parent_pool().shared.path(self.item())
            }

            /// Its options, as the bytes of their message of descriptor.proto, also those that the
            /// library does not read. Where it has none, there are no bytes.
            ///
            /// # Panics
            /// Where memory was refused.
            #[must_use]
            pub fn options(&self) -> Vec<u8> {
                let options = self.parent_pool().shared.raw.options(self.item());
                held(options.expect("the options"))
            }

            /// Its linked record, as the bytes of its message of descriptor.proto: part of
            /// [`FileDescriptor::encode_to_vec`].
            ///
            /// # Panics
            /// Where memory was refused.
            #[must_use]
            pub fn encode_to_vec(&self) -> Vec<u8> {
                let file = self.parent_file().encode_to_vec();
                held(crate::records::record_at(&file, self.path())).to_vec()
            }

            /// Where it stands in its source, and its comments, where its file tells it, as it does
            /// by `--include_source_info` of `protoc`.
            #[must_use]
            pub fn location(&self) -> Option<Location> {
                self.parent_pool().shared.location(self.item())
            }
        }

        impl std::fmt::Debug for $descriptor {
            fn fmt(&self, f: &mut std::fmt::Formatter<'_>) -> std::fmt::Result {
                let mut tuple = f.debug_tuple(stringify!($descriptor));
                tuple.field(&self.full_name()).finish()
            }
        }
    };
}

/// What may be deprecated.
macro_rules! may_be_deprecated {
    ($descriptor:ident) => {
        impl $descriptor {
            /// Whether its options say that it is deprecated.
            #[must_use]
            pub fn is_deprecated(&self) -> bool {
                self.info().is_deprecated != 0
            }
        }
    };
}

/// What may be declared in a message.
macro_rules! nested {
    ($descriptor:ident) => {
        impl $descriptor {
            /// The message that it is declared in, if any.
            #[must_use]
            pub fn parent_message(&self) -> Option<MessageDescriptor> {
                let parent = some(self.info().parent)?;
                Some(MessageDescriptor::new(&self.pool, parent))
            }
        }
    };
}

/// What has a number and a type: fields and extensions.
macro_rules! typed {
    ($descriptor:ident) => {
        impl $descriptor {
            /// Its number.
            #[must_use]
            pub fn number(&self) -> u32 {
                self.info().number
            }

            /// How often it stands in a message.
            #[must_use]
            pub fn cardinality(&self) -> Cardinality {
                Cardinality::new(self.info().cardinality)
            }

            /// Its type.
            #[must_use]
            pub fn kind(&self) -> Kind {
                let info = self.info();
                Kind::new(self.parent_pool(), info.kind, info.type_index)
            }

            /// Whether it is declared as a group.
            #[must_use]
            pub fn is_group(&self) -> bool {
                self.info().is_group != 0
            }

            /// Whether it is repeated, and no map.
            #[must_use]
            pub fn is_list(&self) -> bool {
                self.info().is_list != 0
            }

            /// Whether it is a map: it is repeated, and its type is the entry of a map.
            #[must_use]
            pub fn is_map(&self) -> bool {
                self.info().is_map != 0
            }

            /// Whether a message has it once.
            #[must_use]
            pub fn is_required(&self) -> bool {
                self.cardinality() == Cardinality::Required
            }

            /// Whether a message tells that it is set.
            #[must_use]
            pub fn supports_presence(&self) -> bool {
                self.info().supports_presence != 0
            }

            /// Whether it is optional by word in proto3.
            #[must_use]
            pub fn is_proto3_optional(&self) -> bool {
                self.info().is_proto3_optional != 0
            }

            /// Whether its values are encoded as one run of bytes.
            #[must_use]
            pub fn is_packed(&self) -> bool {
                self.info().is_packed != 0
            }

            /// Whether a default value was given.
            #[must_use]
            pub fn has_default_value(&self) -> bool {
                self.info().has_default != 0
            }

            /// The value that it has where it is not set: that which was given as its default, of a
            /// repeated field an empty list, else the zero of its type, of an enum the first value.
            /// A default of a `float` or a `double` whose text is no number is NaN.
            ///
            /// # Panics
            /// Where memory was refused.
            #[must_use]
            pub fn default_value(&self) -> Value {
                let info = self.info();
                if Cardinality::new(info.cardinality) == Cardinality::Repeated {
                    return Value::List(Vec::new());
                }
                let kind = self.kind();
                if info.has_default == 0 {
                    return kind.default_value();
                }
                let told = self.parent_pool().shared.raw.default(self.item());
                let value = kind.told_value(held(told.expect("a default value")));
                value.unwrap_or_else(|| kind.default_value())
            }
        }
    };
}

pub(crate) use {by_index, by_position, may_be_deprecated, named, nested, typed};
