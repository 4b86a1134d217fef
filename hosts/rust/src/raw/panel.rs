//! The plain station's and the panel's entries as the archive has them (include/panel.h).

unsafe extern "C" {
    /// As `station_request`, by the plain station.
    pub fn plain_request(room: *mut u8, room_length: usize, count: u8, set: *const u8, set_length: usize) -> u32;
    /// As `station_event`, by the plain station.
    pub fn plain_event(room: *mut u8, room_length: usize, way: u8) -> u32;
    /// As `station_result`, by the plain station.
    pub fn plain_result(room: *mut u8, room_length: usize, issue: u16, number: u8, ending: u8) -> u32;
    /// A condition of an instruction on a record, explained.
    pub fn panel_condition(image: u64, five: *const u8, five_length: usize, c: u8, room: *mut u8, room_length: usize) -> u32;
    /// The record after an instruction, by the plain engine.
    pub fn panel_next(image: u64, five: *const u8, five_length: usize, next: *mut u8, next_length: usize) -> u32;
    /// The cars of a record, by walking its rows.
    pub fn panel_cars(image: u64, room: *mut u8, room_length: usize) -> u32;
}
