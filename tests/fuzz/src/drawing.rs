//! The side of drawing_harness.c. Nothing is handed in that has sorts.

use crate::judged::command::Command;
use crate::judged::drawing::{apart, read, write, NOT_A_DRAWING, NO_ROOM, UNSOUND};
use crate::Side;

/// The entries for drawings, as drawing_harness.c numbers them.
pub struct Drawing;

const WRITE: u8 = 0;
const READ: u8 = 1;
const WRITE_APART: u8 = 2;
const READ_APART: u8 = 3;

impl Side for Drawing {
    #[cfg(feature = "wrong")]
    fn list(&self) -> &'static str {
        "drawing"
    }

    fn call(&self, lent: &mut Command) -> u32 {
        match lent.entry {
            WRITE => write(lent.image, lent.room),
            READ => read(lent.input, lent.room),
            WRITE_APART => apart::write(lent.image, lent.room),
            _ => apart::read(lent.input, lent.room),
        }
        .returned()
    }

    fn handed(&self, _: &Command) -> u8 {
        0
    }

    fn sorts(&self) -> u8 {
        0
    }

    fn shows(&self, _: u8, _: u8) -> bool {
        false
    }

    fn gives(&self, entry: u8, number: u8) -> bool {
        match entry {
            WRITE | WRITE_APART => matches!(number, 0 | UNSOUND | NO_ROOM),
            READ => matches!(number, 0 | UNSOUND | NO_ROOM | NOT_A_DRAWING),
            READ_APART => matches!(number, 0 | NO_ROOM | NOT_A_DRAWING),
            _ => false,
        }
    }
}
