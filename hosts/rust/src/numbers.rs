//! The table of the numbers that the entries answer with, in words.

use std::fmt;

/// The table: a case for each number, with its words.
macro_rules! table {
    ($($case:ident = $number:literal $words:literal,)*) => {
        /// What is answered; each case is the number that it has in the table.
        #[derive(Clone, Copy, Debug, PartialEq, Eq, Hash, PartialOrd, Ord)]
        #[repr(u8)]
        pub enum Number {
            $(#[doc = $words] $case = $number,)*
        }

        impl Number {
            /// The number in words.
            pub fn words(self) -> &'static str {
                match self {
                    $(Number::$case => $words,)*
                }
            }
        }

        /// Of a number that isn't in the table there is no case: it is handed back.
        impl TryFrom<u8> for Number {
            type Error = u8;

            fn try_from(number: u8) -> Result<Number, u8> {
                match number {
                    $($number => Ok(Number::$case),)*
                    none => Err(none),
                }
            }
        }
    };
}

table! {
    Taken = 0 "taken",
    TooFewBytes = 1 "fewer bytes than it says",
    BadLength = 2 "a length that its kind doesn't have",
    UnknownKind = 3 "unknown kind",
    BadField = 4 "a field out of range",
    TooMany = 5 "more than eight instructions",
    SetOutstanding = 6 "a set is outstanding",
    EmptySet = 7 "empty set",
    Overlap = 8 "overlap",
    EventImpossible = 10 "event impossible",
    NoSet = 11 "no set is outstanding",
    NotInSet = 12 "not in the set",
    AlreadyAnswered = 13 "already answered",
    Unsound = 15 "image not sound",
    Unfit = 16 "station unfit",
    NoRoom = 17 "room too small",
    NothingNamed = 20 "nothing named",
    Gap = 21 "a gap between those named",
    NotAvailable = 22 "not available",
    NotFree = 23 "no free place to move to",
    OddCount = 24 "odd count: a car would be torn",
    HalfMove = 25 "half move in row 2 or 3",
    SameHeight = 26 "already at that height",
    NotAtRotation = 27 "not at rotation height",
    CellsNotFree = 28 "cells not free for the tilt or the rotation",
    Late = 29 "late: of a set before the present one",
    NotIssued = 30 "of a set that was not issued",
    OutOfTurn = 31 "out of turn",
    SetApart = 32 "a part is set apart",
    KeptOpen = 33 "places are kept open",
    TooManySets = 35 "more than 64 sets",
    WishNotMet = 36 "wish not met",
    ZeroNumber = 37 "number zero",
    KnownNumber = 38 "number already in the garage, or given twice",
    WrongCount = 39 "not that many numbers",
    Full = 40 "a total is full",
    BadLine = 41 "not a drawing",
}

impl Number {
    /// What an entry returned: each is proved to answer with a number of the table.
    pub(crate) fn of(number: u8) -> Number {
        Number::try_from(number).expect("a number of the table")
    }
}

impl fmt::Display for Number {
    fn fmt(&self, f: &mut fmt::Formatter) -> fmt::Result {
        write!(f, "{} ({})", *self as u8, self.words())
    }
}
