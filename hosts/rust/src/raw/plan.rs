//! The entries for plans as the archive has it (include/plan.h).

unsafe extern "C" {
    /// What the plan of these bytes is told.
    pub fn plan_judge(plan: *const u8, plan_length: usize) -> u32;

    /// The same, and writes on what grounds: eighteen bytes.
    pub fn plan_explain(plan: *const u8, plan_length: usize, room: *mut u8, room_length: usize) -> u32;
}
