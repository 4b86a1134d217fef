//! Where the cells of the paper's reduced floor stand in a record: three half cells on either side of the lift, two cells in the middle
//! of rows 2 and 3. The lift turns where all six half cells are free.
use std::ops::Range;

pub const ROW_1: Range<u32> = 0..12;
pub const LEFT_BELT: Range<u32> = 2..5;
pub const LIFT_CELLS: Range<u32> = 5..7;
pub const RIGHT_BELT: Range<u32> = 7..10;
pub const ROTATION_CELLS: [Range<u32>; 2] = [2..5, 7..10];
pub const OTHER_ROWS: [Range<u32>; 2] = [20..24, 30..34];
