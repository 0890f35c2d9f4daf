//! A reader of the bytes of a `FileDescriptorProto` that the library has written, for what no call
//! of the library tells.

/// The field that has the positions of public imports.
const PUBLIC_DEPENDENCY: u64 = 10;

/// The positions of the public imports of a file among all its imports.
pub(crate) fn public_dependencies(record: &[u8]) -> Vec<u32> {
    let mut reader = Reader { rest: record };
    let mut positions = Vec::new();
    while let Some((number, value)) = reader.field() {
        if let (PUBLIC_DEPENDENCY, Value::Number(position)) = (number, value) {
            positions.extend(u32::try_from(position).ok());
        }
    }
    positions
}

/// The record to which a path leads in another: numbers of fields, and positions from 0.
pub(crate) fn record_at<'a>(record: &'a [u8], path: &[i32]) -> Option<&'a [u8]> {
    path.chunks(2).try_fold(record, |record, step| match step {
        [number, position] => part(record, *number, *position),
        _ => None,
    })
}

/// The bytes at a position among the values of a field.
fn part(record: &[u8], number: i32, position: i32) -> Option<&[u8]> {
    let number = u64::try_from(number).ok()?;
    let mut before = position;
    let mut reader = Reader { rest: record };
    while let Some((found, value)) = reader.field() {
        match value {
            Value::Bytes(bytes) if found == number && before == 0 => return Some(bytes),
            Value::Bytes(_) if found == number => before -= 1,
            _ => {}
        }
    }
    None
}

/// The value of a field.
enum Value<'a> {
    Number(u64),
    Bytes(&'a [u8]),
}

struct Reader<'a> {
    rest: &'a [u8],
}

impl<'a> Reader<'a> {
    /// The number and the value of the next field, or none at the end.
    fn field(&mut self) -> Option<(u64, Value<'a>)> {
        let tag = self.varint()?;
        let value = match tag & 7 {
            0 => Value::Number(self.varint()?),
            wire_type => {
                let length = match wire_type {
                    1 => 8,
                    5 => 4,
                    _ => usize::try_from(self.varint()?).ok()?,
                };
                let bytes = self.rest.get(..length)?;
                self.rest = &self.rest[length..];
                Value::Bytes(bytes)
            }
        };
        Some((tag >> 3, value))
    }

    /// A number of seven bits a byte, the lowest first.
    fn varint(&mut self) -> Option<u64> {
        let mut number = 0;
        for shift in (0..64).step_by(7) {
            let (byte, rest) = self.rest.split_first()?;
            self.rest = rest;
            number |= u64::from(byte & 0x7f) << shift;
            if *byte < 0x80 {
                return Some(number);
            }
        }
        None
    }
}

#[cfg(test)]
mod tests {
    use super::{public_dependencies, record_at};

    #[test]
    fn positions_are_read() {
        assert_eq!(
            public_dependencies(b"\x0a\x07a.proto\x1a\x01b\x50\x00\x50\x81\x01"),
            [0, 129]
        );
        assert_eq!(public_dependencies(b"\x1a\x09b"), [0; 0]);
    }

    #[test]
    fn paths_lead_to_records() {
        let record = b"\x22\x01a\x2a\x01b\x22\x05\x12\x00\x12\x01c\x20\x00";
        assert_eq!(record_at(record, &[]), Some(&record[..]));
        assert_eq!(record_at(record, &[4, 0]), Some(&b"a"[..]));
        assert_eq!(record_at(record, &[4, 1, 2, 0]), Some(&b""[..]));
        assert_eq!(record_at(record, &[4, 1, 2, 1]), Some(&b"c"[..]));
        for path in [&[4, 2][..], &[4], &[4, -1], &[-4, 0], &[7, 0]] {
            assert_eq!(record_at(record, path), None);
        }
    }
}
