//! Questions for building sets, and the version of what is linked.

use crate::{lent, Instruction, Number, Refusal};

/// The version of the archive that is linked, by its three numbers: the first moves where a caller must change something, the second where
/// something was added, the third else.
///
/// ```
/// assert_eq!(station::version(), (1, 0, 0));
/// ```
pub fn version() -> (u16, u8, u8) {
    let [third, second, low, high] = lent::station_version().to_le_bytes();
    (u16::from_le_bytes([low, high]), second, third)
}

impl Instruction {
    /// The bits of the record that it may read or write, on whatever record; the lift is bits 52 to 54. 4 where it names a belt that its row
    /// doesn't have.
    pub fn area(&self) -> Result<u64, Refusal> {
        let mut area = [0; 8];
        lent::garage_area(&self.five(), &mut area).into_result()?;
        Ok(u64::from_le_bytes(area))
    }

    /// Whether the two can't stand in one set, since their areas share a place. 4 where one of them names a belt that its row doesn't have,
    /// with 0 as the place if it is this one, else 1.
    ///
    /// ```
    /// use station::Instruction;
    /// let [lift, rotate, belts] = ["lift street", "rotate", "belts row 2 middle, lower, full"].map(|line| line.parse::<Instruction>().unwrap());
    /// assert_eq!((lift.overlaps(&rotate)?, lift.overlaps(&belts)?), (true, false));
    /// # Ok::<(), station::Refusal>(())
    /// ```
    pub fn overlaps(&self, other: &Instruction) -> Result<bool, Refusal> {
        match lent::garage_overlap(&self.five(), &other.five()).into_result() {
            Err(Refusal { number: Number::Overlap, .. }) => Ok(true),
            told => told.map(|()| false),
        }
    }
}
