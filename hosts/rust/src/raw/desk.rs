//! The desk's entries as the archive has them (include/desk.h).

unsafe extern "C" {
    /// Writes the start desk.
    pub fn desk_start(room: *mut u8, room_length: usize) -> u32;
    /// Requests a set, as `station_request`.
    pub fn desk_request(room: *mut u8, room_length: usize, count: u8, set: *const u8, set_length: usize) -> u32;
    /// A drive begins or ends; a begin of a drive-in brings a card's number.
    pub fn desk_event(room: *mut u8, room_length: usize, way: u8, card: u32) -> u32;
    /// The result of an instruction, as `station_result`.
    pub fn desk_result(room: *mut u8, room_length: usize, issue: u16, number: u8, ending: u8) -> u32;
    /// Takes an image as the record, with the numbers of its cars.
    pub fn desk_image(room: *mut u8, room_length: usize, image: u64, apart: u64, count: u8, cards: *const u8, cards_length: usize) -> u32;
    /// Writes the record, and what is set apart.
    pub fn desk_ask(room: *const u8, room_length: usize, image: *mut u8, image_length: usize) -> u32;
    /// Where the car with a number is.
    pub fn desk_where(room: *const u8, room_length: usize, card: u32) -> u32;
    /// Which card is leaving.
    pub fn desk_leaving(room: *const u8, room_length: usize, card: *mut u8, card_length: usize) -> u32;
    /// Every car, a line each.
    pub fn desk_list(room: *const u8, room_length: usize, lines: *mut u8, lines_length: usize) -> u32;
    /// What is outstanding.
    pub fn desk_outstanding(room: *const u8, room_length: usize, set: *mut u8, set_length: usize) -> u32;
    /// What an image would change, a line for each card.
    pub fn desk_compare(
        room: *const u8,
        room_length: usize,
        image: u64,
        apart: u64,
        count: u8,
        cards: *const u8,
        cards_length: usize,
        lines: *mut u8,
        lines_length: usize,
    ) -> u32;
}
