//! The report's entries as the archive has them (include/report.h).

unsafe extern "C" {
    /// Writes zeros as the totals of a new report.
    pub fn report_start(totals: *mut u8, totals_length: usize) -> u32;
    /// Counts a message, by what it does on a station.
    pub fn report_message(
        totals: *mut u8,
        totals_length: usize,
        station: *const u8,
        station_length: usize,
        message: *const u8,
        message_length: usize,
    ) -> u32;
    /// Writes the report's text.
    pub fn report_lines(totals: *const u8, totals_length: usize, full: u8, out: *mut u8, out_length: usize) -> u32;
}
