//! What a pool shares with its clones and its descriptors: the pool of the library, and what was asked
//! for.

use crate::ffi;
use crate::kinds::Location;
use crate::lists::{Below, Scope};
use crate::once::{Once, Slots};
use crate::raw::RawPool;

/// What kinds of items there are, that of packages too.
const KINDS: usize = 9;

/// The names of an item.
pub(crate) struct Names {
    full_name: Box<str>,
    /// Where the name begins in the full name.
    start: usize,
    json_name: Once<Box<str>>,
    path: Once<Box<[i32]>>,
    reserved: Once<Box<[Box<str>]>>,
}

/// The names of a file.
struct FileNames {
    name: Box<str>,
    package: Box<str>,
}

/// What was asked for: names, and what is declared where. Names of items are kept by kind, index and
/// position, and lists by kind and file.
#[derive(Default)]
struct Kept {
    counts: Once<ffi::Counts>,
    files: Slots<FileNames>,
    items: [Slots<Slots<Names>>; KINDS],
    scopes: [Slots<Scope>; KINDS],
    lists: [Slots<Below>; KINDS],
}

/// What a pool shares.
#[derive(Default)]
pub(crate) struct Shared {
    pub raw: RawPool,
    kept: Kept,
}

/// What a call answers of what the pool has. A descriptor is made of no other index, and keeps the
/// pool as it is.
pub(crate) fn held<T>(found: Option<T>) -> T {
    found.expect("what a descriptor shows is in its pool")
}

impl Shared {
    pub fn new(raw: RawPool) -> Shared {
        Shared {
            raw,
            kept: Kept::default(),
        }
    }

    /// Changes the pool, and lets go of what was asked for.
    pub fn change<T>(&mut self, change: impl FnOnce(&mut RawPool) -> T) -> T {
        self.kept = Kept::default();
        change(&mut self.raw)
    }

    /// How much the pool has of each kind. The library is asked once.
    fn counts(&self) -> &ffi::Counts {
        self.kept.counts.get(|| self.raw.counts())
    }

    fn file(&self, file: u32) -> &FileNames {
        let count = || self.counts().files as usize;
        self.kept.files.get(count, file as usize, || FileNames {
            name: held(self.raw.file_name(file)),
            package: held(self.raw.file_package(file)),
        })
    }

    pub fn file_name(&self, file: u32) -> &str {
        &self.file(file).name
    }

    pub fn file_package(&self, file: u32) -> &str {
        &self.file(file).package
    }

    /// The items of a kind that has indexes, of those that are declared in a file.
    pub fn below(&self, kind: u32, file: u32) -> &Below {
        let files = || self.counts().files as usize;
        self.kept.lists[kind as usize].get(files, file as usize, || {
            Below::new(file, self.indexes(kind), |index| self.scope(kind, index))
        })
    }

    /// Where an item of a kind that has indexes is declared. The library is asked for it once.
    pub fn scope(&self, kind: u32, index: u32) -> Scope {
        let indexes = || self.indexes(kind) as usize;
        let raw = &self.raw;
        *self.kept.scopes[kind as usize].get(indexes, index as usize, || {
            let scope = match kind {
                ffi::MESSAGE => raw.message(index).map(|info| (info.file, info.parent)),
                ffi::SERVICE => raw.service(index).map(|info| (info.file, ffi::NONE)),
                ffi::ENUM => raw.enumeration(index).map(|info| (info.file, info.parent)),
                _ => raw.extension(index).map(|info| (info.file, info.parent)),
            };
            let (file, parent) = held(scope);
            Scope { file, parent }
        })
    }

    /// How many indexes there are that items of a kind have.
    fn indexes(&self, kind: u32) -> u32 {
        let counts = self.counts();
        match kind {
            ffi::MESSAGE | ffi::FIELD | ffi::ONEOF => counts.messages,
            ffi::SERVICE | ffi::METHOD => counts.services,
            ffi::ENUM | ffi::ENUM_VALUE => counts.enums,
            _ => counts.extensions,
        }
    }

    /// How many items there are of the kind and the index that an item has.
    fn positions(&self, item: ffi::Item) -> u64 {
        match item.kind {
            ffi::FIELD => held(self.raw.message(item.index)).fields,
            ffi::ONEOF => held(self.raw.message(item.index)).oneofs,
            ffi::METHOD => held(self.raw.service(item.index)).methods,
            ffi::ENUM_VALUE => held(self.raw.enumeration(item.index)).values,
            _ => 1,
        }
    }

    fn names(&self, item: ffi::Item) -> &Names {
        let indexes = || self.indexes(item.kind) as usize;
        let positions = || self.positions(item) as usize;
        self.kept.items[item.kind as usize]
            .get(indexes, item.index as usize, Slots::default)
            .get(positions, item.position as usize, || {
                let full_name = held(self.raw.full_name(item));
                let start = full_name.len() - held(self.raw.name(item)).len();
                Names {
                    full_name,
                    start,
                    json_name: Once::new(),
                    path: Once::new(),
                    reserved: Once::new(),
                }
            })
    }

    pub fn name(&self, item: ffi::Item) -> &str {
        let names = self.names(item);
        &names.full_name[names.start..]
    }

    pub fn full_name(&self, item: ffi::Item) -> &str {
        &self.names(item).full_name
    }

    /// The JSON name of a field or an extension. Where none was given, it is the name in camel case.
    pub fn json_name(&self, item: ffi::Item) -> &str {
        self.names(item).json_name.get(|| {
            let given = self.raw.json_name(item);
            given.unwrap_or_else(|| camel_case(self.name(item)))
        })
    }

    /// Where an item is declared in the record of its file.
    pub fn path(&self, item: ffi::Item) -> &[i32] {
        let path = &self.names(item).path;
        path.get(|| held(self.raw.path(item)).into_boxed_slice())
    }

    /// The names that a message or an enum reserves.
    pub fn reserved_names(&self, item: ffi::Item) -> &[Box<str>] {
        self.names(item).reserved.get(|| match item.kind {
            ffi::MESSAGE => (0..held(self.raw.message(item.index)).reserved_names as u32)
                .map(|position| held(self.raw.message_reserved_name(item.index, position)))
                .collect(),
            _ => (0..held(self.raw.enumeration(item.index)).reserved_names as u32)
                .map(|position| held(self.raw.enum_reserved_name(item.index, position)))
                .collect(),
        })
    }

    /// Where an item stands in its source, with its comments.
    pub fn location(&self, item: ffi::Item) -> Option<Location> {
        let text = String::from;
        Some(Location {
            span: self.raw.span(item)?,
            path: self.path(item).to_vec(),
            leading_comments: self.raw.leading_comments(item).map(text),
            trailing_comments: self.raw.trailing_comments(item).map(text),
            leading_detached_comments: (0..)
                .map_while(|position| self.raw.detached_comments(item, position))
                .map(text)
                .collect(),
        })
    }
}

/// A name as `protoc` writes it in JSON: without underlines, and with the letter behind each in
/// upper case.
fn camel_case(name: &str) -> Box<str> {
    let mut camel = String::with_capacity(name.len());
    let mut is_raised = false;
    for letter in name.chars() {
        match letter {
            '_' => is_raised = true,
            _ if is_raised => {
                camel.push(letter.to_ascii_uppercase());
                is_raised = false;
            }
            _ => camel.push(letter),
        }
    }
    camel.into_boxed_str()
}
