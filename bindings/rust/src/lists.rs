//! What is declared right below a file, and below each of its messages.
//!
//! Files are linked one after another. So of each kind the items of a file have indexes in a row, and
//! those of a later file come after them. The first of them is found by halves, and the list is made of
//! the items of the file alone.

/// Where an item is declared: the file, and the message right around it, or `NONE`.
#[derive(Clone, Copy)]
pub(crate) struct Scope {
    pub file: u32,
    pub parent: u32,
}

/// An item of a file, by the message right around it.
struct Member {
    parent: u32,
    index: u32,
}

/// The items of one kind that a file has, by what is right around them.
pub(crate) struct Below {
    members: Box<[Member]>,
}

impl Below {
    /// The items of a file. `count` is how many items of the kind the pool has.
    pub fn new(file: u32, count: u32, scope: impl Fn(u32) -> Scope) -> Below {
        let first = first_of(file, count, &scope);
        let scopes = (first..count).map(|index| (index, scope(index)));
        let mut members: Box<[Member]> = scopes
            .take_while(|(_, scope)| scope.file == file)
            .map(|(index, Scope { parent, .. })| Member { parent, index })
            .collect();
        members.sort_by_key(|member| member.parent);
        Below { members }
    }

    /// The indexes of those right below a message, or where it is `NONE` right below the file, in
    /// rising order.
    pub fn of(&self, parent: u32) -> impl ExactSizeIterator<Item = u32> + DoubleEndedIterator + '_ {
        let start = self
            .members
            .partition_point(|member| member.parent < parent);
        let rest = &self.members[start..];
        let length = rest.partition_point(|member| member.parent == parent);
        rest[..length].iter().map(|member| member.index)
    }
}

/// The first index whose item is of a file or of a later one, or the count.
fn first_of(file: u32, count: u32, scope: impl Fn(u32) -> Scope) -> u32 {
    let (mut first, mut end) = (0, count);
    while first < end {
        let middle = first + (end - first) / 2;
        if scope(middle).file < file {
            first = middle + 1;
        } else {
            end = middle;
        }
    }
    first
}

#[cfg(test)]
mod tests {
    use super::{Below, Scope};
    use crate::ffi::NONE;
    use std::cell::Cell;

    const COUNT: u32 = 80_000;

    /// Each file has four items, of which the third is in the second, but each third file has none.
    fn scope(index: u32) -> Scope {
        let file = index / 8 * 3 + index % 8 / 4;
        let parent = if index % 4 == 2 { index - 1 } else { NONE };
        Scope { file, parent }
    }

    #[test]
    fn items_are_below_their_file_or_their_message() {
        for (file, first) in [(0, 0), (1, 4), (3, 8), (29_998, 79_996)] {
            let below = Below::new(file, COUNT, scope);
            assert!(below.of(NONE).eq([first, first + 1, first + 3]));
            assert!(below.of(first + 1).eq([first + 2]));
            assert!(below.of(first).eq([]) && below.of(first + 5).eq([]));
        }
        for file in [2, 29_999] {
            assert_eq!(Below::new(file, COUNT, scope).of(NONE).len(), 0);
        }
    }

    #[test]
    fn a_list_asks_for_few_items_of_other_files() {
        let asked = Cell::new(0);
        let counted = |index| {
            asked.set(asked.get() + 1);
            scope(index)
        };
        for file in [0, 1, 2, 12_345, 29_998, 29_999] {
            Below::new(file, COUNT, counted);
            let most = 17 + 5;
            assert!(
                asked.take() <= most,
                "17 halves, its four items and the next"
            );
        }
    }
}
