//! The calls of the library, each as a safe function. All `unsafe` code of the crate stands here and
//! in `once.rs`.
//!
//! Of each call the same is to be seen, and is not said again below. The pool is null or what the
//! library left there. A call that changes it has it by `&mut`, so no other call uses it meanwhile.
//! A reader is passed a view by `RawPool::with`. Each other pointer is that of a slice or a value
//! that is borrowed for the call, so it is not null, and it is passed with the slice's own length.
//! What is written is borrowed by `&mut`, so it overlaps nothing. The calls take any numbers.

use crate::faults::OutOfMemory;
use crate::ffi;

/// How long a text may be that is had by one call.
const FIRST_ROOM: usize = 128;

/// How long a path may be that is had by one call.
const FIRST_PATH: usize = 16;

/// How long the text of changes may be that is had by one call. Each call makes it anew.
const FIRST_CHANGES: usize = 16384;

/// The first call of two for linked files, which only counts their bytes.
const NO_ROOM: usize = 0;

/// A pool of the library.
pub(crate) struct RawPool {
    pool: ffi::Pool,
}

// SAFETY: that a pool may be handed to another thread is proved of the library's handle.
unsafe impl Send for RawPool {}

// SAFETY: a shared pool is only read, by views. It is proved of the library that a view may be
// handed to another thread, and that many readers may use one pool at once.
unsafe impl Sync for RawPool {}

/// How a call ended that was to link files. The pool is as it was after all but `Done`.
#[derive(Debug, Clone, Copy, PartialEq, Eq)]
pub(crate) enum Ended {
    Done,
    Refused,
    Fault,
    TooMany,
    OutOfMemory,
}

fn ended(status: u8) -> Ended {
    match status {
        ffi::DONE => Ended::Done,
        ffi::REFUSED => Ended::Refused,
        ffi::FAULT => Ended::Fault,
        ffi::TOO_MANY => Ended::TooMany,
        _ => Ended::OutOfMemory,
    }
}

impl RawPool {
    pub const fn new() -> RawPool {
        RawPool {
            pool: ffi::Pool::EMPTY,
        }
    }

    /// Calls a reader. A reader is passed a copy of the pool's pointer, as the header does it, so
    /// that any number of threads may read at once.
    fn with<T>(&self, read: impl FnOnce(*mut ffi::Pool) -> T) -> T {
        read(&mut self.pool.view())
    }

    /// The pool for a call that changes it.
    fn alone(&mut self) -> *mut ffi::Pool {
        &mut self.pool
    }

    pub fn add_set(&mut self, bytes: &[u8]) -> Ended {
        let pool = self.alone();
        ended(unsafe { ffi::protolink_pool_add_set(pool, bytes.as_ptr(), bytes.len()) })
    }

    pub fn add_file(&mut self, bytes: &[u8]) -> Ended {
        let pool = self.alone();
        ended(unsafe { ffi::protolink_pool_add_file(pool, bytes.as_ptr(), bytes.len()) })
    }

    /// Links files whose bytes stand behind one another, each with its length.
    pub fn add_files(&mut self, bytes: &[u8], lens: &[usize]) -> Ended {
        let (pool, count) = (self.alone(), lens.len());
        let (at, len) = (bytes.as_ptr(), bytes.len());
        ended(unsafe { ffi::protolink_pool_add_files(pool, at, len, lens.as_ptr(), count) })
    }

    pub fn add_script(&mut self, script: &[u8]) -> Ended {
        let pool = self.alone();
        ended(unsafe { ffi::protolink_pool_add_script(pool, script.as_ptr(), script.len()) })
    }

    pub fn limit_faults(&mut self, most: usize) -> Result<(), OutOfMemory> {
        match unsafe { ffi::protolink_pool_limit_faults(self.alone(), most) } {
            ffi::DONE => Ok(()),
            _ => Err(OutOfMemory),
        }
    }

    pub fn try_clone(&self) -> Result<RawPool, OutOfMemory> {
        let mut copy = RawPool::new();
        let to = copy.alone();
        match self.with(|pool| unsafe { ffi::protolink_pool_clone(pool, to) }) {
            ffi::DONE => Ok(copy),
            _ => Err(OutOfMemory),
        }
    }

    /// What a call writes to a buffer, or none where the pool does not have it. An error says that
    /// memory was refused, to the library or for the buffer.
    fn written<T: Clone + Default>(
        &self,
        room: usize,
        call: impl Fn(*mut ffi::Pool, *mut T, usize, *mut usize) -> u8,
    ) -> Result<Option<Vec<T>>, OutOfMemory> {
        let mut buffer = Vec::new();
        lengthen(&mut buffer, room)?;
        let mut length = 0;
        loop {
            let (at, room) = (buffer.as_mut_ptr(), buffer.len());
            match self.with(|pool| call(pool, at, room, &mut length)) {
                ffi::DONE => {
                    buffer.truncate(length);
                    return Ok(Some(buffer));
                }
                ffi::SHORT => lengthen(&mut buffer, length)?,
                ffi::NO_MEMORY => return Err(OutOfMemory),
                _ => return Ok(None),
            }
        }
    }

    /// A text of a call for which the library takes no memory. It panics where there is none for
    /// the text.
    fn text(
        &self,
        call: impl Fn(*mut ffi::Pool, *mut u8, usize, *mut usize) -> u8,
    ) -> Option<Box<str>> {
        let bytes = self.written(FIRST_ROOM, call).expect("memory for a text")?;
        Some(String::from_utf8_lossy(&bytes).into())
    }

    /// A value that a call writes, or none where the pool does not have it.
    fn value<T: Default>(&self, call: impl FnOnce(*mut ffi::Pool, *mut T) -> u8) -> Option<T> {
        let mut value = T::default();
        match self.with(|pool| call(pool, &mut value)) {
            ffi::DONE => Some(value),
            _ => None,
        }
    }

    pub fn added(&self) -> ffi::Added {
        let mut added = ffi::Added::default();
        self.with(|pool| unsafe { ffi::protolink_pool_added(pool, &mut added) });
        added
    }

    pub fn report(&self) -> Box<str> {
        self.text(|p, at, room, len| unsafe { ffi::protolink_pool_report(p, at, room, len) })
            .unwrap_or_default()
    }

    pub fn report_json(&self) -> Box<str> {
        self.text(|p, at, room, len| unsafe { ffi::protolink_pool_report_json(p, at, room, len) })
            .unwrap_or_default()
    }

    /// What a pool changes of an older one, as an object of JSON, or none where no level or no
    /// compatibility has the number.
    pub fn changes(
        &self,
        older: &RawPool,
        level: u32,
        compatibility: u32,
    ) -> Result<Option<Vec<u8>>, OutOfMemory> {
        self.written(FIRST_CHANGES, |p, at, room, len| {
            older.with(|o| unsafe {
                ffi::protolink_pool_changes(p, o, level, compatibility, at, room, len)
            })
        })
    }

    pub fn linked(&self) -> Result<Vec<u8>, OutOfMemory> {
        let linked = self.written(NO_ROOM, |p, at, room, len| unsafe {
            ffi::protolink_pool_linked(p, at, room, len)
        })?;
        Ok(linked.unwrap_or_default())
    }

    pub fn linked_file(&self, file: u32) -> Result<Option<Vec<u8>>, OutOfMemory> {
        self.written(NO_ROOM, |p, at, room, len| unsafe {
            ffi::protolink_pool_linked_file(p, file, at, room, len)
        })
    }

    pub fn find(&self, name: &str) -> Option<(ffi::Item, u32)> {
        let mut file = 0;
        let item = self.value(|p, item| unsafe {
            ffi::protolink_pool_find(p, name.as_ptr(), name.len(), item, &mut file)
        })?;
        Some((item, file))
    }

    pub fn find_path(&self, name: &str) -> Option<Vec<i32>> {
        self.numbers(|p, at, room, len| unsafe {
            ffi::protolink_pool_find_path(p, name.as_ptr(), name.len(), at, room, len)
        })
    }

    pub fn counts(&self) -> ffi::Counts {
        let mut counts = ffi::Counts::default();
        self.with(|pool| unsafe { ffi::protolink_pool_counts(pool, &mut counts) });
        counts
    }

    pub fn extension_numbered(&self, message: u32, number: u32) -> Option<u32> {
        self.value(|p, at| unsafe { ffi::protolink_pool_extension(p, message, number, at) })
    }

    pub fn file(&self, file: u32) -> Option<ffi::FileInfo> {
        self.value(|p, info| unsafe { ffi::protolink_file(p, file, info) })
    }

    pub fn message(&self, message: u32) -> Option<ffi::MessageInfo> {
        self.value(|p, info| unsafe { ffi::protolink_message(p, message, info) })
    }

    pub fn field(&self, message: u32, position: u32) -> Option<ffi::FieldInfo> {
        self.value(|p, info| unsafe { ffi::protolink_field(p, message, position, info) })
    }

    pub fn oneof(&self, message: u32, position: u32) -> Option<ffi::OneofInfo> {
        self.value(|p, info| unsafe { ffi::protolink_oneof(p, message, position, info) })
    }

    pub fn enumeration(&self, enumeration: u32) -> Option<ffi::EnumInfo> {
        self.value(|p, info| unsafe { ffi::protolink_enum(p, enumeration, info) })
    }

    pub fn enum_value(&self, enumeration: u32, position: u32) -> Option<ffi::EnumValueInfo> {
        self.value(|p, info| unsafe { ffi::protolink_enum_value(p, enumeration, position, info) })
    }

    pub fn service(&self, service: u32) -> Option<ffi::ServiceInfo> {
        self.value(|p, info| unsafe { ffi::protolink_service(p, service, info) })
    }

    pub fn method(&self, service: u32, position: u32) -> Option<ffi::MethodInfo> {
        self.value(|p, info| unsafe { ffi::protolink_method(p, service, position, info) })
    }

    pub fn extension(&self, extension: u32) -> Option<ffi::ExtensionInfo> {
        self.value(|p, info| unsafe { ffi::protolink_extension(p, extension, info) })
    }

    pub fn import(&self, file: u32, position: u32) -> Option<u32> {
        self.value(|p, at| unsafe { ffi::protolink_file_import(p, file, position, at) })
    }

    pub fn message_extension(&self, message: u32, position: u32) -> Option<u32> {
        self.value(|p, at| unsafe { ffi::protolink_message_extension(p, message, position, at) })
    }

    pub fn oneof_field(&self, message: u32, oneof: u32, position: u32) -> Option<u32> {
        self.value(|p, at| unsafe { ffi::protolink_oneof_field(p, message, oneof, position, at) })
    }

    pub fn file_named(&self, name: &str) -> Option<u32> {
        self.value(|p, at| unsafe { ffi::protolink_file_by_name(p, name.as_ptr(), name.len(), at) })
    }

    pub fn extension_range(&self, message: u32, position: u32) -> Option<ffi::Range> {
        self.value(|p, range| unsafe {
            ffi::protolink_message_extension_range(p, message, position, range)
        })
    }

    pub fn message_reserved_range(&self, message: u32, position: u32) -> Option<ffi::Range> {
        self.value(|p, range| unsafe {
            ffi::protolink_message_reserved_range(p, message, position, range)
        })
    }

    pub fn enum_reserved_range(&self, enumeration: u32, position: u32) -> Option<ffi::Range> {
        self.value(|p, range| unsafe {
            ffi::protolink_enum_reserved_range(p, enumeration, position, range)
        })
    }

    pub fn message_reserved_name(&self, message: u32, position: u32) -> Option<Box<str>> {
        self.text(|p, at, room, len| unsafe {
            ffi::protolink_message_reserved_name(p, message, position, at, room, len)
        })
    }

    pub fn enum_reserved_name(&self, enumeration: u32, position: u32) -> Option<Box<str>> {
        self.text(|p, at, room, len| unsafe {
            ffi::protolink_enum_reserved_name(p, enumeration, position, at, room, len)
        })
    }

    pub fn field_named(&self, message: u32, name: &str) -> Option<u32> {
        self.value(|p, at| unsafe {
            ffi::protolink_field_by_name(p, message, name.as_ptr(), name.len(), at)
        })
    }

    pub fn field_json_named(&self, message: u32, name: &str) -> Option<u32> {
        self.value(|p, at| unsafe {
            ffi::protolink_field_by_json_name(p, message, name.as_ptr(), name.len(), at)
        })
    }

    pub fn field_numbered(&self, message: u32, number: u32) -> Option<u32> {
        self.value(|p, at| unsafe { ffi::protolink_field_by_number(p, message, number, at) })
    }

    pub fn enum_value_named(&self, enumeration: u32, name: &str) -> Option<u32> {
        self.value(|p, at| unsafe {
            ffi::protolink_enum_value_by_name(p, enumeration, name.as_ptr(), name.len(), at)
        })
    }

    pub fn enum_value_numbered(&self, enumeration: u32, number: i32) -> Option<u32> {
        self.value(|p, at| unsafe {
            ffi::protolink_enum_value_by_number(p, enumeration, number, at)
        })
    }

    /// It panics where memory was refused.
    pub fn method_named(&self, service: u32, name: &str) -> Option<u32> {
        let mut at = 0;
        let status = self.with(|p| unsafe {
            ffi::protolink_method_by_name(p, service, name.as_ptr(), name.len(), &mut at)
        });
        assert_ne!(status, ffi::NO_MEMORY, "memory for the name of a method");
        if status == ffi::DONE {
            Some(at)
        } else {
            None
        }
    }

    pub fn file_name(&self, file: u32) -> Option<Box<str>> {
        self.text(|p, at, room, len| unsafe { ffi::protolink_file_name(p, file, at, room, len) })
    }

    pub fn file_package(&self, file: u32) -> Option<Box<str>> {
        self.text(|p, at, room, len| unsafe { ffi::protolink_file_package(p, file, at, room, len) })
    }

    pub fn name(&self, item: ffi::Item) -> Option<Box<str>> {
        self.text(|p, at, room, len| unsafe { ffi::protolink_name(p, &item, at, room, len) })
    }

    pub fn full_name(&self, item: ffi::Item) -> Option<Box<str>> {
        self.text(|p, at, room, len| unsafe { ffi::protolink_full_name(p, &item, at, room, len) })
    }

    pub fn json_name(&self, item: ffi::Item) -> Option<Box<str>> {
        self.text(|p, at, room, len| unsafe { ffi::protolink_json_name(p, &item, at, room, len) })
    }

    /// The numbers of a call for which the library takes no memory. It panics where there is none
    /// for them.
    fn numbers(
        &self,
        call: impl Fn(*mut ffi::Pool, *mut i32, usize, *mut usize) -> u8,
    ) -> Option<Vec<i32>> {
        self.written(FIRST_PATH, call).expect("memory for numbers")
    }

    pub fn path(&self, item: ffi::Item) -> Option<Vec<i32>> {
        self.numbers(|p, at, room, len| unsafe { ffi::protolink_path(p, &item, at, room, len) })
    }

    pub fn span(&self, item: ffi::Item) -> Option<Vec<i32>> {
        self.numbers(|p, at, room, len| unsafe { ffi::protolink_span(p, &item, at, room, len) })
    }

    pub fn leading_comments(&self, item: ffi::Item) -> Option<Box<str>> {
        self.text(|p, at, room, len| unsafe {
            ffi::protolink_leading_comments(p, &item, at, room, len)
        })
    }

    pub fn trailing_comments(&self, item: ffi::Item) -> Option<Box<str>> {
        self.text(|p, at, room, len| unsafe {
            ffi::protolink_trailing_comments(p, &item, at, room, len)
        })
    }

    pub fn detached_comments(&self, item: ffi::Item, position: u32) -> Option<Box<str>> {
        self.text(|p, at, room, len| unsafe {
            ffi::protolink_detached_comments(p, &item, position, at, room, len)
        })
    }

    pub fn file_options(&self, file: u32) -> Result<Option<Vec<u8>>, OutOfMemory> {
        self.written(NO_ROOM, |p, at, room, len| unsafe {
            ffi::protolink_file_options(p, file, at, room, len)
        })
    }

    pub fn options(&self, item: ffi::Item) -> Result<Option<Vec<u8>>, OutOfMemory> {
        self.written(NO_ROOM, |p, at, room, len| unsafe {
            ffi::protolink_options(p, &item, at, room, len)
        })
    }

    pub fn default(&self, item: ffi::Item) -> Result<Option<Vec<u8>>, OutOfMemory> {
        self.written(FIRST_ROOM, |p, at, room, len| unsafe {
            ffi::protolink_default(p, &item, at, room, len)
        })
    }
}

impl Default for RawPool {
    fn default() -> RawPool {
        RawPool::new()
    }
}

impl Drop for RawPool {
    fn drop(&mut self) {
        unsafe { ffi::protolink_pool_clear(self.alone()) }
    }
}

/// Makes a buffer longer.
fn lengthen<T: Clone + Default>(buffer: &mut Vec<T>, length: usize) -> Result<(), OutOfMemory> {
    let more = length.saturating_sub(buffer.len());
    buffer.try_reserve_exact(more).map_err(|_| OutOfMemory)?;
    buffer.resize(length, T::default());
    Ok(())
}

/// The version of the library: a million for the first number, a thousand for the second.
pub(crate) fn version() -> u32 {
    unsafe { ffi::protolink_version() }
}
