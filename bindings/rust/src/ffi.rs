//! The library's functions and structs, as `protolink.h` declares them.
//!
//! `tools/compare_header.py` of the repository compares these declarations, name by name and type
//! by type, with the header and with the library's own source.

// All calls and all members are declared, also those that the crate does not use.
#![allow(dead_code)]

use std::ffi::c_void;
use std::ptr;

/// Null is an empty pool. What is not null the library left there.
#[repr(C)]
pub struct Pool {
    at: *mut c_void,
}

impl Pool {
    pub const EMPTY: Pool = Pool {
        at: ptr::null_mut(),
    };

    /// A copy of the pointer, for a reader.
    pub const fn view(&self) -> Pool {
        Pool { at: self.at }
    }
}

#[repr(C)]
#[derive(Clone, Copy, Default)]
pub struct Item {
    pub kind: u32,
    pub index: u32,
    pub position: u32,
}

#[repr(C)]
#[derive(Clone, Copy, Default)]
pub struct Counts {
    pub files: u32,
    pub messages: u32,
    pub enums: u32,
    pub services: u32,
    pub extensions: u32,
}

#[repr(C)]
#[derive(Clone, Copy, Default)]
pub struct Added {
    pub files: u64,
    pub passed_over: u64,
    pub differing: u64,
}

#[repr(C)]
#[derive(Clone, Copy, Default)]
pub struct FileInfo {
    pub syntax: u32,
    pub imports: u64,
    pub public_imports: u64,
    pub messages: u64,
    pub enums: u64,
    pub services: u64,
    pub extensions: u64,
    pub is_deprecated: u32,
}

#[repr(C)]
#[derive(Clone, Copy, Default)]
pub struct MessageInfo {
    pub file: u32,
    pub parent: u32,
    pub fields: u64,
    pub oneofs: u64,
    pub extensions: u64,
    pub nested_messages: u64,
    pub nested_enums: u64,
    pub nested_extensions: u64,
    pub extension_ranges: u64,
    pub reserved_ranges: u64,
    pub reserved_names: u64,
    pub map_key: u32,
    pub map_value: u32,
    pub is_map_entry: u32,
    pub is_message_set: u32,
    pub is_deprecated: u32,
}

#[repr(C)]
#[derive(Clone, Copy, Default)]
pub struct FieldInfo {
    pub number: u32,
    pub cardinality: u32,
    pub kind: u32,
    pub type_index: u32,
    pub oneof: u32,
    pub is_packed: u32,
    pub supports_presence: u32,
    pub has_default: u32,
    pub is_map: u32,
    pub is_list: u32,
    pub is_required: u32,
    pub is_group: u32,
    pub is_proto3_optional: u32,
    pub is_deprecated: u32,
}

#[repr(C)]
#[derive(Clone, Copy, Default)]
pub struct OneofInfo {
    pub fields: u64,
    pub is_synthetic: u32,
}

#[repr(C)]
#[derive(Clone, Copy, Default)]
pub struct EnumInfo {
    pub file: u32,
    pub parent: u32,
    pub values: u64,
    pub allow_alias: u32,
    pub reserved_ranges: u64,
    pub reserved_names: u64,
    pub is_closed: u32,
    pub is_deprecated: u32,
}

#[repr(C)]
#[derive(Clone, Copy, Default)]
pub struct EnumValueInfo {
    pub number: i32,
    pub is_deprecated: u32,
}

#[repr(C)]
#[derive(Clone, Copy, Default)]
pub struct ServiceInfo {
    pub file: u32,
    pub methods: u64,
    pub is_deprecated: u32,
}

#[repr(C)]
#[derive(Clone, Copy, Default)]
pub struct MethodInfo {
    pub input: u32,
    pub output: u32,
    pub client_streaming: u32,
    pub server_streaming: u32,
    pub is_deprecated: u32,
}

#[repr(C)]
#[derive(Clone, Copy, Default)]
pub struct ExtensionInfo {
    pub file: u32,
    pub parent: u32,
    pub extendee: u32,
    pub number: u32,
    pub cardinality: u32,
    pub kind: u32,
    pub type_index: u32,
    pub is_packed: u32,
    pub has_default: u32,
    pub supports_presence: u32,
    pub is_map: u32,
    pub is_list: u32,
    pub is_group: u32,
    pub is_proto3_optional: u32,
    pub is_deprecated: u32,
}

#[repr(C)]
#[derive(Clone, Copy, Default)]
pub struct Range {
    pub start: i32,
    pub end: i32,
}

/// Where an index may be missing: none.
pub const NONE: u32 = u32::MAX;

pub const DONE: u8 = 0;
pub const REFUSED: u8 = 1;
pub const FAULT: u8 = 2;
pub const NO_MEMORY: u8 = 3;
pub const SHORT: u8 = 4;
pub const TOO_MANY: u8 = 5;

pub const LEVEL_WIRE: u32 = 0;
pub const LEVEL_JSON: u32 = 1;
pub const LEVEL_SOURCE: u32 = 2;

pub const COMPATIBILITY_BACKWARD: u32 = 0;
pub const COMPATIBILITY_FORWARD: u32 = 1;
pub const COMPATIBILITY_FULL: u32 = 2;

pub const MESSAGE: u32 = 1;
pub const FIELD: u32 = 2;
pub const ONEOF: u32 = 3;
pub const SERVICE: u32 = 4;
pub const METHOD: u32 = 5;
pub const ENUM: u32 = 6;
pub const ENUM_VALUE: u32 = 7;
pub const EXTENSION: u32 = 8;

extern "C" {
    pub fn protolink_version() -> u32;
    pub fn protolink_pool_add_set(pool: *mut Pool, bytes: *const u8, len: usize) -> u8;
    pub fn protolink_pool_add_file(pool: *mut Pool, bytes: *const u8, len: usize) -> u8;
    pub fn protolink_pool_add_files(
        pool: *mut Pool,
        bytes: *const u8,
        len: usize,
        lens: *const usize,
        count: usize,
    ) -> u8;
    pub fn protolink_pool_add_script(pool: *mut Pool, script: *const u8, len: usize) -> u8;
    pub fn protolink_pool_limit_faults(pool: *mut Pool, most: usize) -> u8;
    pub fn protolink_pool_added(pool: *mut Pool, added: *mut Added);
    pub fn protolink_pool_report(
        pool: *mut Pool,
        buffer: *mut u8,
        room: usize,
        length: *mut usize,
    ) -> u8;
    pub fn protolink_pool_report_json(
        pool: *mut Pool,
        buffer: *mut u8,
        room: usize,
        length: *mut usize,
    ) -> u8;
    pub fn protolink_pool_linked(
        pool: *mut Pool,
        buffer: *mut u8,
        room: usize,
        length: *mut usize,
    ) -> u8;
    pub fn protolink_pool_linked_file(
        pool: *mut Pool,
        file: u32,
        buffer: *mut u8,
        room: usize,
        length: *mut usize,
    ) -> u8;
    pub fn protolink_pool_find(
        pool: *mut Pool,
        name: *const u8,
        name_len: usize,
        item: *mut Item,
        file: *mut u32,
    ) -> u8;
    pub fn protolink_pool_find_path(
        pool: *mut Pool,
        name: *const u8,
        name_len: usize,
        path: *mut i32,
        room: usize,
        length: *mut usize,
    ) -> u8;
    pub fn protolink_pool_counts(pool: *mut Pool, counts: *mut Counts);
    pub fn protolink_pool_extension(
        pool: *mut Pool,
        message: u32,
        number: u32,
        extension: *mut u32,
    ) -> u8;
    pub fn protolink_pool_changes(
        pool: *mut Pool,
        older: *mut Pool,
        level: u32,
        compatibility: u32,
        buffer: *mut u8,
        room: usize,
        length: *mut usize,
    ) -> u8;
    pub fn protolink_pool_clone(pool: *mut Pool, copy: *mut Pool) -> u8;
    pub fn protolink_pool_clear(pool: *mut Pool);
    pub fn protolink_file(pool: *mut Pool, file: u32, info: *mut FileInfo) -> u8;
    pub fn protolink_message(pool: *mut Pool, message: u32, info: *mut MessageInfo) -> u8;
    pub fn protolink_field(
        pool: *mut Pool,
        message: u32,
        position: u32,
        info: *mut FieldInfo,
    ) -> u8;
    pub fn protolink_oneof(
        pool: *mut Pool,
        message: u32,
        position: u32,
        info: *mut OneofInfo,
    ) -> u8;
    pub fn protolink_enum(pool: *mut Pool, enumeration: u32, info: *mut EnumInfo) -> u8;
    pub fn protolink_enum_value(
        pool: *mut Pool,
        enumeration: u32,
        position: u32,
        info: *mut EnumValueInfo,
    ) -> u8;
    pub fn protolink_service(pool: *mut Pool, service: u32, info: *mut ServiceInfo) -> u8;
    pub fn protolink_method(
        pool: *mut Pool,
        service: u32,
        position: u32,
        info: *mut MethodInfo,
    ) -> u8;
    pub fn protolink_extension(pool: *mut Pool, extension: u32, info: *mut ExtensionInfo) -> u8;
    pub fn protolink_file_import(
        pool: *mut Pool,
        file: u32,
        position: u32,
        imported: *mut u32,
    ) -> u8;
    pub fn protolink_message_extension(
        pool: *mut Pool,
        message: u32,
        position: u32,
        extension: *mut u32,
    ) -> u8;
    pub fn protolink_oneof_field(
        pool: *mut Pool,
        message: u32,
        oneof: u32,
        position: u32,
        field: *mut u32,
    ) -> u8;
    pub fn protolink_field_by_name(
        pool: *mut Pool,
        message: u32,
        name: *const u8,
        name_len: usize,
        position: *mut u32,
    ) -> u8;
    pub fn protolink_field_by_json_name(
        pool: *mut Pool,
        message: u32,
        name: *const u8,
        name_len: usize,
        position: *mut u32,
    ) -> u8;
    pub fn protolink_field_by_number(
        pool: *mut Pool,
        message: u32,
        number: u32,
        position: *mut u32,
    ) -> u8;
    pub fn protolink_enum_value_by_name(
        pool: *mut Pool,
        enumeration: u32,
        name: *const u8,
        name_len: usize,
        position: *mut u32,
    ) -> u8;
    pub fn protolink_file_name(
        pool: *mut Pool,
        file: u32,
        buffer: *mut u8,
        room: usize,
        length: *mut usize,
    ) -> u8;
    pub fn protolink_file_package(
        pool: *mut Pool,
        file: u32,
        buffer: *mut u8,
        room: usize,
        length: *mut usize,
    ) -> u8;
    pub fn protolink_name(
        pool: *mut Pool,
        item: *const Item,
        buffer: *mut u8,
        room: usize,
        length: *mut usize,
    ) -> u8;
    pub fn protolink_full_name(
        pool: *mut Pool,
        item: *const Item,
        buffer: *mut u8,
        room: usize,
        length: *mut usize,
    ) -> u8;
    pub fn protolink_json_name(
        pool: *mut Pool,
        item: *const Item,
        buffer: *mut u8,
        room: usize,
        length: *mut usize,
    ) -> u8;
    pub fn protolink_default(
        pool: *mut Pool,
        item: *const Item,
        buffer: *mut u8,
        room: usize,
        length: *mut usize,
    ) -> u8;
    pub fn protolink_file_items(
        pool: *mut Pool,
        file: u32,
        kind: u32,
        indexes: *mut u32,
        room: usize,
        length: *mut usize,
    ) -> u8;
    pub fn protolink_message_items(
        pool: *mut Pool,
        message: u32,
        kind: u32,
        indexes: *mut u32,
        room: usize,
        length: *mut usize,
    ) -> u8;
    pub fn protolink_message_extension_range(
        pool: *mut Pool,
        message: u32,
        position: u32,
        range: *mut Range,
    ) -> u8;
    pub fn protolink_message_reserved_range(
        pool: *mut Pool,
        message: u32,
        position: u32,
        range: *mut Range,
    ) -> u8;
    pub fn protolink_enum_reserved_range(
        pool: *mut Pool,
        enumeration: u32,
        position: u32,
        range: *mut Range,
    ) -> u8;
    pub fn protolink_message_reserved_name(
        pool: *mut Pool,
        message: u32,
        position: u32,
        buffer: *mut u8,
        room: usize,
        length: *mut usize,
    ) -> u8;
    pub fn protolink_enum_reserved_name(
        pool: *mut Pool,
        enumeration: u32,
        position: u32,
        buffer: *mut u8,
        room: usize,
        length: *mut usize,
    ) -> u8;
    pub fn protolink_file_by_name(
        pool: *mut Pool,
        name: *const u8,
        name_len: usize,
        file: *mut u32,
    ) -> u8;
    pub fn protolink_enum_value_by_number(
        pool: *mut Pool,
        enumeration: u32,
        number: i32,
        position: *mut u32,
    ) -> u8;
    pub fn protolink_method_by_name(
        pool: *mut Pool,
        service: u32,
        name: *const u8,
        name_len: usize,
        position: *mut u32,
    ) -> u8;
    pub fn protolink_file_options(
        pool: *mut Pool,
        file: u32,
        buffer: *mut u8,
        room: usize,
        length: *mut usize,
    ) -> u8;
    pub fn protolink_options(
        pool: *mut Pool,
        item: *const Item,
        buffer: *mut u8,
        room: usize,
        length: *mut usize,
    ) -> u8;
    pub fn protolink_path(
        pool: *mut Pool,
        item: *const Item,
        path: *mut i32,
        room: usize,
        length: *mut usize,
    ) -> u8;
    pub fn protolink_span(
        pool: *mut Pool,
        item: *const Item,
        span: *mut i32,
        room: usize,
        length: *mut usize,
    ) -> u8;
    pub fn protolink_leading_comments(
        pool: *mut Pool,
        item: *const Item,
        buffer: *mut u8,
        room: usize,
        length: *mut usize,
    ) -> u8;
    pub fn protolink_trailing_comments(
        pool: *mut Pool,
        item: *const Item,
        buffer: *mut u8,
        room: usize,
        length: *mut usize,
    ) -> u8;
    pub fn protolink_detached_comments(
        pool: *mut Pool,
        item: *const Item,
        position: u32,
        buffer: *mut u8,
        room: usize,
        length: *mut usize,
    ) -> u8;
}
