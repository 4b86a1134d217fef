//! A plan's text turned into its bytes.

use crate::child;

/// Where a plan's sets begin: behind its record, what is set apart, the wish and how many sets there are.
pub const SETS: usize = 18;

/// The bytes that the program PLAN_TEXT makes of a text.
pub fn planned(plan_text: &str, text: &str) -> Vec<u8> {
    let (bytes, told, well) = child::run_on(plan_text, text.as_bytes());
    assert!(well, "the plan is not read: {told}");
    bytes
}
