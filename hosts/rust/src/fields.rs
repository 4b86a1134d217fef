//! The words that instructions, events and results are made of, each with its byte.

use crate::{Number, Refusal};
use std::fmt;

/// A case for each byte of a field.
macro_rules! field {
    ($(#[$about:meta])* $name:ident { $($(#[$of:meta])* $case:ident = $byte:literal,)* }) => {
        $(#[$about])*
        #[derive(Clone, Copy, Debug, PartialEq, Eq, Hash, PartialOrd, Ord)]
        #[repr(u8)]
        pub enum $name {
            $($(#[$of])* $case = $byte,)*
        }

        impl $name {
            /// All cases, in the order of their bytes.
            pub const ALL: &'static [$name] = &[$($name::$case,)*];

            /// The case's byte.
            pub fn byte(self) -> u8 { self as u8 }
        }

        /// A byte that is none is told 4, a field out of range.
        impl TryFrom<u8> for $name {
            type Error = Refusal;

            fn try_from(byte: u8) -> Result<$name, Refusal> {
                match byte {
                    $($byte => Ok($name::$case),)*
                    _ => Err(Number::BadField.into()),
                }
            }
        }
    };
}

field! {
    /// A row: row 1 has twenty half cells, rows 2 and 3 have ten cells.
    Row {
        /// Row 1.
        One = 1,
        /// Row 2.
        Two = 2,
        /// Row 3.
        Three = 3,
    }
}

field! {
    /// A side, where shuttles stand.
    Side {
        /// The left side.
        Left = 0,
        /// The right side.
        Right = 1,
    }
}

field! {
    /// Which way something moves: belts by columns, shuttles by rows.
    Toward {
        /// Toward lower columns or rows.
        Lower = 0,
        /// Toward higher columns or rows.
        Higher = 1,
    }
}

field! {
    /// How far a belt moves; rows 2 and 3 move full only.
    Size {
        /// Half a car's length, one cell of row 1.
        Half = 0,
        /// A car's length.
        Full = 1,
    }
}

field! {
    /// How a shuttle stands.
    Orientation {
        /// Lowered: it carries the row's last cell.
        Lowered = 0,
        /// Tilted out of the way.
        Tilted = 1,
    }
}

field! {
    /// The lift's heights.
    Height {
        /// At street.
        Street = 0,
        /// At rotation height.
        Rotation = 1,
        /// In the basement, where its belt is part of row 1.
        Basement = 2,
    }
}

field! {
    /// A drive begins or ends.
    Event {
        /// A drive into the lift begins.
        BeginIn = 1,
        /// A drive out of it begins.
        BeginOut = 2,
        /// The drive has ended, and the car did come or go.
        EndedDone = 3,
        /// It has ended, and the car did not.
        EndedNotDone = 4,
    }
}

field! {
    /// How an instruction went.
    Outcome {
        /// Nothing moved: surely.
        Failed = 0,
        /// It is done.
        Done = 1,
        /// It got stuck on the way, and what is in its area is not known.
        Stuck = 2,
    }
}

impl fmt::Display for Event {
    fn fmt(&self, f: &mut fmt::Formatter) -> fmt::Result {
        f.write_str(match self {
            Event::BeginIn => "begin in",
            Event::BeginOut => "begin out",
            Event::EndedDone => "ended and done",
            Event::EndedNotDone => "ended and not done",
        })
    }
}

impl fmt::Display for Outcome {
    fn fmt(&self, f: &mut fmt::Formatter) -> fmt::Result {
        f.write_str(match self {
            Outcome::Failed => "failed",
            Outcome::Done => "done",
            Outcome::Stuck => "stuck",
        })
    }
}

field! {
    /// The five sorts of instructions, by their opcodes.
    Op {
        /// Belts move.
        Belts = 1,
        /// Shuttles move.
        Shuttles = 2,
        /// A shuttle tilts.
        Tilt = 3,
        /// The lift moves.
        Lift = 4,
        /// The lift rotates.
        Rotate = 5,
    }
}

field! {
    /// The kinds of messages that a station reads.
    Kind {
        /// A request of a set.
        Request = 1,
        /// A drive begins or ends.
        Event = 2,
        /// A result of an instruction.
        Result = 3,
        /// An image to take.
        Image = 4,
        /// An ask for the image.
        Ask = 5,
    }
}

/// A belt of a row. Row 1 has five (left shuttle, left, lift, right, right shuttle), rows 2 and 3 have three (left shuttle, middle, right
/// shuttle).
#[derive(Clone, Copy, Debug, PartialEq, Eq, Hash, PartialOrd, Ord)]
#[repr(u8)]
pub enum Belt {
    /// The left shuttle's.
    LeftShuttle,
    /// The left one of row 1.
    Left,
    /// The middle one of row 2 or 3.
    Middle,
    /// The lift's, in row 1.
    Lift,
    /// The right one of row 1.
    Right,
    /// The right shuttle's.
    RightShuttle,
}

impl Belt {
    /// All belts that there are in some row, from the left.
    pub const ALL: &'static [Belt] = &[Belt::LeftShuttle, Belt::Left, Belt::Middle, Belt::Lift, Belt::Right, Belt::RightShuttle];
}

/// A small set of cases, a bit for each.
macro_rules! set {
    ($(#[$about:meta])* $name:ident of $case:ident) => {
        $(#[$about])*
        #[derive(Clone, Copy, Debug, Default, PartialEq, Eq, Hash)]
        pub struct $name(u8);

        impl $name {
            /// None.
            pub const NONE: $name = $name(0);

            /// Whether one is named.
            pub fn has(self, one: $case) -> bool { self.0 >> one as u8 & 1 == 1 }

            /// All that are named, in order.
            pub fn iter(self) -> impl Iterator<Item = $case> { $case::ALL.iter().copied().filter(move |&one| self.has(one)) }
        }

        impl FromIterator<$case> for $name {
            fn from_iter<I: IntoIterator<Item = $case>>(all: I) -> $name {
                $name(all.into_iter().fold(0, |bits, one| bits | 1 << one as u8))
            }
        }

        impl<const N: usize> From<[$case; N]> for $name {
            fn from(all: [$case; N]) -> $name { all.into_iter().collect() }
        }

        impl From<$case> for $name {
            fn from(one: $case) -> $name { [one].into() }
        }
    };
}

set! {
    /// The belts that an instruction names.
    ///
    /// ```
    /// use station::{Belt, Belts};
    /// let belts = Belts::from([Belt::Left, Belt::Lift]);
    /// assert!(belts.has(Belt::Lift) && !belts.has(Belt::Right));
    /// ```
    Belts of Belt
}

set! {
    /// The rows that an instruction names.
    ///
    /// ```
    /// use station::{Row, Rows};
    /// assert_eq!(Rows::from([Row::Two, Row::One]).iter().collect::<Vec<_>>(), [Row::One, Row::Two]);
    /// ```
    Rows of Row
}
