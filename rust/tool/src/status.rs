//! The exit statuses: the same for every subcommand, in one list from which the help is printed.

#[derive(Clone, Copy, PartialEq, Eq, Debug)]
pub enum Status {
    Good,
    BlockRefused,
    WrongCall,
    InstantRefused,
    Short,
    File,
    Different,
    CannotTell,
    Refused,
    NotExpected,
}

use Status::*;

const MEANINGS: [(Status, u8, &str); 10] = [
    (Good, 0, "all good"),
    (BlockRefused, 1, "a block was refused (1 to 8)"),
    (WrongCall, 2, "wrong call; nothing was written"),
    (InstantRefused, 3, "some instant, or a state, was refused (9 to 13, 17)"),
    (Short, 4, "the inputs end within a set; every whole set was run"),
    (File, 5, "a file, or standard output, could not be read or written"),
    (Different, 6, "two blocks are not alike"),
    (CannotTell, 7, "whether two blocks are alike cannot be told (25)"),
    (Refused, 8, "something else asked was refused (14 to 16, 18 to 24, 26; a log that is none, or another block's; names that do not fit)"),
    (NotExpected, 9, "not as expected: fmt --check; with run --expect, 9 stands in place of 1, 3 and 4, but for a refused state of --from"),
];

impl Status {
    pub fn number(self) -> u8 {
        MEANINGS.iter().find(|row| row.0 == self).map_or(0, |row| row.1)
    }

    /// The status of a call that the library turned down with this number.
    pub fn of(refusal: u16) -> Status {
        match refusal {
            0 => Good,
            1..=8 => BlockRefused,
            9..=13 | 17 => InstantRefused,
            25 => CannotTell,
            _ => Refused,
        }
    }

    /// The one of two that a program ends with: 5 before the others, then the lowest that is not 0.
    pub fn and(self, other: Status) -> Status {
        let rank = |status: Status| match status {
            File => 0,
            Good => u8::MAX,
            _ => status.number(),
        };
        if rank(other) < rank(self) {
            other
        } else {
            self
        }
    }
}

/// The list as the help has it.
pub fn list() -> String {
    MEANINGS.iter().map(|(_, number, meaning)| format!("  {}  {}\n", number, meaning)).collect()
}

#[cfg(test)]
mod tests {
    use super::*;

    #[test]
    fn the_lowest_and_five_before_all() {
        assert_eq!(Good.and(Short), Short);
        assert_eq!(Short.and(InstantRefused), InstantRefused);
        assert_eq!(BlockRefused.and(File), File);
        assert_eq!(File.and(BlockRefused), File);
        assert_eq!(Good.and(Good), Good);
    }

    #[test]
    fn numbers_of_refusals() {
        let of = |number| Status::of(number).number();
        assert_eq!([of(0), of(1), of(8), of(9), of(13), of(14), of(16), of(17)], [0, 1, 1, 3, 3, 8, 8, 3]);
    }

    #[test]
    fn numbers_of_the_shelf() {
        assert!((18..23).all(|number| Status::of(number) == Refused));
    }

    #[test]
    fn numbers_of_two_blocks() {
        assert_eq!([23, 24, 25].map(|number| Status::of(number).number()), [8, 8, 7]);
    }
}
