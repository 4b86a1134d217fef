//! Where the cells of the garage stand in a record.
use std::ops::Range;

pub const ROW_1: Range<u32> = 0..20;
/// Its belts between the shuttles; what is left of it on either side is a shuttle's.
pub const LEFT_BELT: Range<u32> = 2..11;
pub const LIFT_CELLS: Range<u32> = 11..13;
pub const RIGHT_BELT: Range<u32> = 13..18;
/// The cells that must be free for the lift to turn.
pub const ROTATION_CELLS: [Range<u32>; 2] = [8..11, 13..16];
/// Rows 2 and 3: the first cell is the left shuttle's, the last the right one's.
pub const OTHER_ROWS: [Range<u32>; 2] = [20..30, 30..40];
