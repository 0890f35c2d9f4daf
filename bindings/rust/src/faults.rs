//! Why files are not linked.

use crate::json::{parse, Value};
use std::error::Error;
use std::fmt;
use std::ops::Deref;
use std::{slice, vec};

/// Memory was refused. It is shown by `Debug` as by `Display`, so that a `main` that ends with it
/// prints the text.
#[derive(Clone, Copy, PartialEq, Eq)]
pub struct OutOfMemory;

impl fmt::Display for OutOfMemory {
    fn fmt(&self, f: &mut fmt::Formatter<'_>) -> fmt::Result {
        f.write_str("memory was refused")
    }
}

impl fmt::Debug for OutOfMemory {
    fn fmt(&self, f: &mut fmt::Formatter<'_>) -> fmt::Result {
        fmt::Display::fmt(self, f)
    }
}

impl Error for OutOfMemory {}

/// Why files were not linked. The pool is what it was.
///
/// It is shown by `Debug` as by `Display`, so that a `main` that ends with it prints the text:
///
/// ```no_run
/// use protolink::{DescriptorError, DescriptorPool};
///
/// fn main() -> Result<(), DescriptorError> {
///     let set = std::fs::read("set.pb").expect("set.pb");
///     let pool = DescriptorPool::decode(set)?;
///     println!("{} files", pool.files().len());
///     Ok(())
/// }
/// ```
///
/// There may be more reasons, as the calls of the library may end in more ways.
#[derive(Clone, PartialEq, Eq)]
#[non_exhaustive]
pub enum DescriptorError {
    /// The files break rules: the faults of the first pass that finds any, in order.
    Refused(Faults),
    /// The bytes are no such set or file, or the script has a fault: where, and what is wrong.
    Unreadable(String),
    /// There is too much of a kind, which is named.
    TooMany(String),
    /// Memory was refused.
    OutOfMemory,
}

/// Faults in order: the first hundred, or as many as
/// [`limit_faults`](crate::DescriptorPool::limit_faults) has set, and how many more there are.
#[derive(Debug, Clone, PartialEq, Eq)]
pub struct Faults {
    told: Vec<Fault>,
    more: u64,
    report: String,
}

/// A rule that files break, and where. It may get members, as the report of the library may.
#[derive(Debug, Clone, PartialEq, Eq, Default)]
#[non_exhaustive]
pub struct Fault {
    /// Its kind, as `DuplicateName`.
    pub code: String,
    /// Its text, as `name 'p.M' is defined twice`.
    pub message: String,
    file: Option<String>,
    start: Option<Start>,
    path: Option<Vec<i32>>,
    /// The full name of the innermost declaration, where there is one.
    pub element: Option<String>,
    /// Its second place, or none: the first holder, the range, or what a name means.
    pub related: Vec<Place>,
    /// What to do, or where a name is declared.
    pub note: String,
}

/// A place in a file. It may get members, as the report of the library may.
#[derive(Debug, Clone, PartialEq, Eq, Default)]
#[non_exhaustive]
pub struct Place {
    file: Option<String>,
    start: Option<Start>,
    path: Option<Vec<i32>>,
    /// The full name of the innermost declaration, where there is one.
    pub element: Option<String>,
}

/// Where a part begins in its source, from 0.
#[derive(Debug, Clone, Copy, PartialEq, Eq)]
struct Start {
    line: usize,
    column: usize,
}

/// What shows a place in a file.
macro_rules! placed {
    ($what:ident) => {
        impl $what {
            /// The name of the file, where a place is shown.
            #[must_use]
            pub fn file(&self) -> Option<&str> {
                self.file.as_deref()
            }

            /// The line at which the part begins in the source, from 0, where the source is known.
            /// In texts for people lines count from 1.
            #[must_use]
            pub fn line(&self) -> Option<usize> {
                Some(self.start?.line)
            }

            /// The column at which the part begins in the source, from 0, where the source is
            /// known. In texts for people columns count from 1.
            #[must_use]
            pub fn column(&self) -> Option<usize> {
                Some(self.start?.column)
            }

            /// The path of the part in the record of the file, where a place is shown: numbers of
            /// fields, and positions from 0.
            #[must_use]
            pub fn path(&self) -> Option<&[i32]> {
                self.path.as_deref()
            }
        }
    };
}

placed!(Fault);
placed!(Place);

impl Fault {
    pub(crate) fn new(value: &Value) -> Fault {
        let place = Place::new(value);
        let related = value.member("related").map_or(&[][..], Value::items);
        Fault {
            code: text(value, "code").unwrap_or_default(),
            message: text(value, "message").unwrap_or_default(),
            file: place.file,
            start: place.start,
            path: place.path,
            element: place.element,
            related: related.iter().map(Place::new).collect(),
            note: text(value, "note").unwrap_or_default(),
        }
    }
}

impl Place {
    fn new(value: &Value) -> Place {
        Place {
            file: text(value, "file"),
            start: Start::new(value),
            path: value.member("path").and_then(path),
            element: text(value, "element"),
        }
    }
}

impl Start {
    /// Lines and columns of a report count from 1.
    fn new(value: &Value) -> Option<Start> {
        Some(Start {
            line: number(value, "line")?.checked_sub(1)?,
            column: number(value, "column")?.checked_sub(1)?,
        })
    }
}

fn text(value: &Value, name: &str) -> Option<String> {
    Some(value.member(name)?.as_text()?.to_owned())
}

fn number(value: &Value, name: &str) -> Option<usize> {
    usize::try_from(value.member(name)?.as_number()?).ok()
}

fn path(value: &Value) -> Option<Vec<i32>> {
    match value {
        Value::Array(numbers) => numbers
            .iter()
            .map(|number| i32::try_from(number.as_number()?).ok())
            .collect(),
        _ => None,
    }
}

impl Faults {
    /// The faults of a report of JSON, or none where it is not what was expected.
    fn read(json: &str, report: &str) -> Option<Faults> {
        let object = parse(json)?;
        let told = object.member("faults")?.items();
        let more = object.member("more")?.as_number()?;
        Some(Faults {
            told: told.iter().map(Fault::new).collect(),
            more: u64::try_from(more).ok()?,
            report: report.to_owned(),
        })
    }

    /// A text as the one fault.
    fn of_text(text: &str) -> Faults {
        let fault = Fault {
            message: text.trim_end().to_owned(),
            ..Fault::default()
        };
        Faults {
            told: vec![fault],
            more: 0,
            report: text.to_owned(),
        }
    }

    /// How many more faults there are than these.
    #[must_use]
    pub fn more(&self) -> u64 {
        self.more
    }

    /// The faults in lines for people, with notes, as `check_descriptors` writes them.
    #[must_use]
    pub fn report(&self) -> &str {
        &self.report
    }
}

impl Deref for Faults {
    type Target = [Fault];

    fn deref(&self) -> &[Fault] {
        &self.told
    }
}

impl IntoIterator for Faults {
    type Item = Fault;
    type IntoIter = vec::IntoIter<Fault>;

    fn into_iter(self) -> vec::IntoIter<Fault> {
        self.told.into_iter()
    }
}

impl<'f> IntoIterator for &'f Faults {
    type Item = &'f Fault;
    type IntoIter = slice::Iter<'f, Fault>;

    fn into_iter(self) -> slice::Iter<'f, Fault> {
        self.told.iter()
    }
}

impl DescriptorError {
    /// The faults of a report of JSON, with the same report in lines. Where the object is not what
    /// was expected, the lines are a fault.
    pub(crate) fn refused(json: &str, report: &str) -> DescriptorError {
        let faults = Faults::read(json, report).unwrap_or_else(|| Faults::of_text(report));
        DescriptorError::Refused(faults)
    }

    pub(crate) fn unreadable(json: &str) -> DescriptorError {
        DescriptorError::Unreadable(member_or_all(json, "error"))
    }

    pub(crate) fn too_many(json: &str) -> DescriptorError {
        DescriptorError::TooMany(member_or_all(json, "too_many"))
    }

    /// The error in lines for people, each ended by a line feed: the faults with their notes, else
    /// one line.
    #[must_use]
    pub fn report(&self) -> String {
        match self {
            DescriptorError::Refused(faults) => faults.report.clone(),
            other => format!("{other}\n"),
        }
    }

    /// The faults of files that break rules, as `Refused` has them, or none where it is another
    /// error.
    #[must_use]
    pub fn faults(&self) -> &[Fault] {
        match self {
            DescriptorError::Refused(faults) => faults,
            _ => &[],
        }
    }

    /// The name of the file that the first fault shows.
    #[must_use]
    pub fn file(&self) -> Option<&str> {
        self.faults().first()?.file()
    }

    /// The line that the first fault shows, from 0.
    #[must_use]
    pub fn line(&self) -> Option<usize> {
        self.faults().first()?.line()
    }

    /// The column that the first fault shows, from 0.
    #[must_use]
    pub fn column(&self) -> Option<usize> {
        self.faults().first()?.column()
    }

    /// The path that the first fault shows.
    #[must_use]
    pub fn path(&self) -> Option<&[i32]> {
        self.faults().first()?.path()
    }
}

/// A text of the report, or where it is not what was expected, the report.
fn member_or_all(json: &str, name: &str) -> String {
    parse(json)
        .and_then(|told| text(&told, name))
        .unwrap_or_else(|| json.trim_end().to_owned())
}

/// `FILE:LINE:COLUMN: MESSAGE`, or `FILE: ELEMENT: MESSAGE` where the source is not known. Lines and
/// columns count from 1.
impl fmt::Display for Fault {
    fn fmt(&self, f: &mut fmt::Formatter<'_>) -> fmt::Result {
        if let Some(file) = &self.file {
            write!(f, "{file}:")?;
            match (self.start, &self.element) {
                (Some(Start { line, column }), _) => write!(f, "{}:{}: ", line + 1, column + 1)?,
                (None, Some(element)) => write!(f, " {element}: ")?,
                (None, None) => f.write_str(" ")?,
            }
        }
        f.write_str(&self.message)
    }
}

impl fmt::Display for DescriptorError {
    fn fmt(&self, f: &mut fmt::Formatter<'_>) -> fmt::Result {
        match self {
            DescriptorError::Refused(faults) => match &faults[..] {
                [] => f.write_str("the files break rules"),
                [fault] if faults.more == 0 => write!(f, "{fault}"),
                [first, rest @ ..] => {
                    write!(f, "{first} (and {} more)", rest.len() as u64 + faults.more)
                }
            },
            DescriptorError::Unreadable(words) => f.write_str(words),
            DescriptorError::TooMany(kind) => write!(f, "too many {kind}"),
            DescriptorError::OutOfMemory => fmt::Display::fmt(&OutOfMemory, f),
        }
    }
}

impl fmt::Debug for DescriptorError {
    fn fmt(&self, f: &mut fmt::Formatter<'_>) -> fmt::Result {
        fmt::Display::fmt(self, f)
    }
}

impl Error for DescriptorError {}

impl Error for Fault {}

impl From<OutOfMemory> for DescriptorError {
    fn from(_: OutOfMemory) -> DescriptorError {
        DescriptorError::OutOfMemory
    }
}
