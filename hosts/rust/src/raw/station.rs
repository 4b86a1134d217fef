//! The station's entries as the archive has them (include/station.h).

unsafe extern "C" {
    /// Writes the start station.
    pub fn station_start(room: *mut u8, room_length: usize) -> u32;
    /// Requests a set of `count` instructions, five bytes each.
    pub fn station_request(room: *mut u8, room_length: usize, count: u8, set: *const u8, set_length: usize) -> u32;
    /// A drive begins or ends.
    pub fn station_event(room: *mut u8, room_length: usize, way: u8) -> u32;
    /// The result of an instruction of the set that was given `issue`.
    pub fn station_result(room: *mut u8, room_length: usize, issue: u16, number: u8, ending: u8) -> u32;
    /// Takes an image as the record.
    pub fn station_image(room: *mut u8, room_length: usize, image: u64, apart: u64) -> u32;
    /// Writes the record, and what is set apart.
    pub fn station_ask(room: *const u8, room_length: usize, image: *mut u8, image_length: usize) -> u32;
    /// Answers a message, as the program does.
    pub fn station_message(
        room: *mut u8,
        room_length: usize,
        message: *const u8,
        message_length: usize,
        reply: *mut u8,
        reply_length: usize,
    ) -> u32;
    /// Whether an image is a possible garage.
    pub fn garage_sound(image: u64) -> bool;
    /// The number of cars of a sound record, else 255.
    pub fn garage_cars(image: u64) -> u32;
    /// What a request of one instruction would be told on a record.
    pub fn garage_allowed(image: u64, five: *const u8, five_length: usize) -> u32;
    /// The record after an instruction.
    pub fn garage_next(image: u64, five: *const u8, five_length: usize, next: *mut u8, next_length: usize) -> u32;
    /// Writes an instruction's area.
    pub fn garage_area(five: *const u8, five_length: usize, area: *mut u8, area_length: usize) -> u32;
    /// Whether two instructions may not stand in one set.
    pub fn garage_overlap(one: *const u8, one_length: usize, other: *const u8, other_length: usize) -> u32;
    /// The archive's version, as one number.
    pub fn station_version() -> u32;
}
