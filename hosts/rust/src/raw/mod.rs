//! The entries as the archive has them, a module for each header of include/, which say what each does and what its caller must see to:
//! each pointer is valid for the length that follows it, bytes lent for writing overlap nothing else that is lent to the call, and no two
//! threads are in calls on one room. [`lent`](crate::lent) has the same calls on slices, where all this is so.

pub mod desk;
pub mod drawing;
pub mod panel;
pub mod plan;
pub mod report;
pub mod station;
