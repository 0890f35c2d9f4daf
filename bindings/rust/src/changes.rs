//! What a pool changes of an older one.

use crate::faults::Fault;
use crate::ffi;
use crate::json::{parse, Value};
use std::fmt;
use std::ops::Deref;
use std::{slice, vec};

/// At which level two pools are compared. Each level contains the ones before it. There may be more
/// of them, as there are more things that a change may break.
#[derive(Debug, Clone, Copy, PartialEq, Eq, PartialOrd, Ord, Hash)]
#[non_exhaustive]
pub enum Level {
    /// What is read otherwise of bytes, or in calls of services.
    Wire,
    /// Besides, what is read otherwise of texts of JSON.
    Json,
    /// Besides, what code that is made of the files has otherwise.
    Source,
}

impl Level {
    pub(crate) fn number(self) -> u32 {
        match self {
            Level::Wire => ffi::LEVEL_WIRE,
            Level::Json => ffi::LEVEL_JSON,
            Level::Source => ffi::LEVEL_SOURCE,
        }
    }

    fn named(word: &str) -> Level {
        match word {
            "wire" => Level::Wire,
            "json" => Level::Json,
            _ => Level::Source,
        }
    }
}

/// Which of two pools is to read what the other writes. There may be more, as registries have more.
#[derive(Debug, Clone, Copy, PartialEq, Eq, Hash)]
#[non_exhaustive]
pub enum Compatibility {
    /// The new one what the older one writes.
    Backward,
    /// The older one what the new one writes.
    Forward,
    /// Each what the other writes: both directions, backward first.
    Full,
}

impl Compatibility {
    pub(crate) fn number(self) -> u32 {
        match self {
            Compatibility::Backward => ffi::COMPATIBILITY_BACKWARD,
            Compatibility::Forward => ffi::COMPATIBILITY_FORWARD,
            Compatibility::Full => ffi::COMPATIBILITY_FULL,
        }
    }
}

/// In which direction a change was found.
#[derive(Debug, Clone, Copy, PartialEq, Eq, Hash)]
pub enum Direction {
    /// The older pool writes, and the new one reads.
    Backward,
    /// The new pool writes, and the older one reads.
    Forward,
}

impl Direction {
    fn named(word: &str) -> Direction {
        match word {
            "backward" => Direction::Backward,
            _ => Direction::Forward,
        }
    }
}

/// What a pool changes of an older one, and where. It may get members, as the report of the library
/// may.
#[derive(Debug, Clone, PartialEq, Eq)]
#[non_exhaustive]
pub struct Change {
    /// Its own level, which may be below the one that was asked for.
    pub level: Level,
    /// Its direction, which is one of those of the compatibility that was asked for.
    pub direction: Direction,
    /// Its kind, text and places: `code` is as `field-kind`, the place that in the new pool, and
    /// `related` has the place in the older one.
    pub fault: Fault,
}

/// Changes in order, backward first: of each direction the first hundred, or as many as
/// [`limit_faults`](crate::DescriptorPool::limit_faults) has set, and how many more there are.
#[derive(Debug, Clone, PartialEq, Eq, Default)]
pub struct Changes {
    told: Vec<Change>,
    more: u64,
}

impl Change {
    fn new(value: &Value) -> Change {
        let word = |name| value.member(name).and_then(Value::as_text);
        Change {
            level: Level::named(word("level").unwrap_or_default()),
            direction: Direction::named(word("direction").unwrap_or_default()),
            fault: Fault::new(value),
        }
    }
}

impl Changes {
    /// The changes of an object of JSON.
    pub(crate) fn read(json: &[u8]) -> Changes {
        let object = parse(&String::from_utf8_lossy(json)).unwrap_or(Value::Null);
        let told = object.member("changes").map_or(&[][..], Value::items);
        let compared = object.member("compared").map_or(&[][..], Value::items);
        let more = compared
            .iter()
            .filter_map(|compared| compared.member("more")?.as_number());
        Changes {
            told: told.iter().map(Change::new).collect(),
            more: more.filter_map(|more| u64::try_from(more).ok()).sum(),
        }
    }

    /// How many more changes there are than these, in all directions together.
    #[must_use]
    pub fn more(&self) -> u64 {
        self.more
    }
}

impl Deref for Changes {
    type Target = [Change];

    fn deref(&self) -> &[Change] {
        &self.told
    }
}

impl Deref for Change {
    type Target = Fault;

    fn deref(&self) -> &Fault {
        &self.fault
    }
}

impl IntoIterator for Changes {
    type Item = Change;
    type IntoIter = vec::IntoIter<Change>;

    fn into_iter(self) -> vec::IntoIter<Change> {
        self.told.into_iter()
    }
}

impl<'c> IntoIterator for &'c Changes {
    type Item = &'c Change;
    type IntoIter = slice::Iter<'c, Change>;

    fn into_iter(self) -> slice::Iter<'c, Change> {
        self.told.iter()
    }
}

impl fmt::Display for Change {
    fn fmt(&self, f: &mut fmt::Formatter<'_>) -> fmt::Result {
        self.fault.fmt(f)
    }
}
