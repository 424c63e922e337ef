//! Why a call refused.

use std::error::Error;
use std::fmt;

/// Why a call refused: document 01's refusals, by name.
///
/// Each is given exactly when its condition holds. Where several hold, the order is 1, 2, 3, 6, 5, 4. A refused call has changed nothing that
/// was lent to it.
///
/// It is an [`Error`], and prints as a sentence with document 01's number and name in front.
///
/// # Examples
///
/// ```
/// use station::{parse, Layout, Refusal, Type4};
///
/// let layout = Layout { coordinate: 33, component: 8, flag: 8, components: 1 };
/// let refusal = parse(Type4, &[0; 12], layout, &[0.0, 1.0, 0.0, 1.0]).unwrap_err();
/// assert_eq!(refusal, Refusal::Layout);
/// assert_eq!(refusal.number(), 1);
/// assert_eq!(
///     refusal.to_string(),
///     "refused 1, LAYOUT: a width of the mesh is outside 1 to 32 bits, or Decode has under four entries: the mesh can't be read"
/// );
/// ```
#[derive(Clone, Copy, Debug, PartialEq, Eq, Hash)]
pub enum Refusal {
    /// 1: a width that the type uses is outside 1 to 32 bits, or Decode has under four entries.
    Layout,
    /// 2: a colour has more than 32 components.
    Components,
    /// 3: the input has over 16,777,216 bytes, or the list over 1,048,576 numbers.
    Length,
    /// 4: the whole answer needs more places than the lent output has. Only the functions of [`slices`](crate::slices) give it; the others lend
    /// exactly what is needed.
    Room {
        /// How many elements of the output the whole answer needs. A call that is lent so many isn't refused for room, and writes every one.
        needed: usize,
    },
    /// 5: the list can't be written or turned into tensor patches. A number doesn't fit its width, the list ends inside a record or a patch, or a
    /// patch's flag is above 3 or the first one isn't 0.
    Record,
    /// 6: a vertex to be written takes under 8 bits, so the fill bits of the last byte could be read back as one more.
    Thin,
    /// 7: not a mesh file. The dump program alone gives it, so no function of this crate does.
    File,
}

impl Refusal {
    /// The refusal of a number that the archive answers; `count` is what it tells beside it, and is 0 for all but ROOM.
    pub(crate) fn numbered(number: u64, count: usize) -> Self {
        match (number, count) {
            (1, 0) => Refusal::Layout,
            (2, 0) => Refusal::Components,
            (3, 0) => Refusal::Length,
            (4, needed) => Refusal::Room { needed },
            (5, 0) => Refusal::Record,
            (6, 0) => Refusal::Thin,
            (7, 0) => Refusal::File,
            _ => unreachable!("the library answers document 01's numbers, and a count beside ROOM alone: {number}, {count}"),
        }
    }

    /// Document 01's number, 1 to 7.
    pub fn number(self) -> u64 {
        self.described().0
    }

    /// Document 01's name, in capitals as it stands there.
    pub fn name(self) -> &'static str {
        self.described().1
    }

    /// The number, the name, and what to tell the caller.
    fn described(self) -> (u64, &'static str, &'static str) {
        match self {
            Refusal::Layout => (
                1,
                "LAYOUT",
                "a width of the mesh is outside 1 to 32 bits, or Decode has under four entries: the mesh can't be read",
            ),
            Refusal::Components => (2, "COMPONENTS", "a colour has more than 32 components"),
            Refusal::Length => (
                3,
                "LENGTH",
                "the input has over 16,777,216 bytes, or the list over 1,048,576 numbers",
            ),
            Refusal::Room { .. } => (
                4,
                "ROOM",
                "the whole answer needs more places than the lent output has",
            ),
            Refusal::Record => (
                5,
                "RECORD",
                "the list can't be written or turned into tensor patches: a number doesn't fit its width, the list ends inside a record or a \
                 patch, or a patch's flag is above 3 or the first one isn't 0",
            ),
            Refusal::Thin => (
                6,
                "THIN",
                "a vertex to be written takes under 8 bits, so the fill bits of the last byte could be read back as one more",
            ),
            Refusal::File => (
                7,
                "FILE",
                "the mesh file is too long, too short, of another mark or version, or not of type 4 to 7",
            ),
        }
    }
}

impl fmt::Display for Refusal {
    fn fmt(&self, f: &mut fmt::Formatter<'_>) -> fmt::Result {
        let (number, name, sentence) = self.described();
        write!(f, "refused {number}, {name}: {sentence}")?;
        match self {
            Refusal::Room { needed } => write!(f, ": it needs {needed}"),
            _ => Ok(()),
        }
    }
}

impl Error for Refusal {}

#[cfg(test)]
mod tests {
    use super::Refusal;
    use std::panic::catch_unwind;

    #[test]
    fn a_number_with_its_count_is_one_refusal() {
        for number in 1..=7 {
            assert_eq!(Refusal::numbered(number, 0).number(), number);
        }
        assert_eq!(Refusal::numbered(4, 66), Refusal::Room { needed: 66 });
    }

    #[test]
    fn other_numbers_and_a_count_beside_another_refusal_are_none() {
        for (number, count) in [
            (0, 0),
            (8, 0),
            (1, 1),
            (2, 1),
            (3, 1),
            (5, 1),
            (6, 1),
            (7, 1),
        ] {
            assert!(catch_unwind(|| Refusal::numbered(number, count)).is_err());
        }
    }
}
