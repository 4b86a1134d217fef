//! The entries for drawings as the archive has them (include/drawing.h).

unsafe extern "C" {
    /// Writes the drawing of a record.
    pub fn drawing_write(image: u64, text: *mut u8, text_length: usize) -> u32;
    /// Reads a drawing, and writes its record.
    pub fn drawing_read(text: *const u8, text_length: usize, room: *mut u8, room_length: usize) -> u32;
    /// Writes the drawing of what is set apart.
    pub fn drawing_write_apart(apart: u64, text: *mut u8, text_length: usize) -> u32;
    /// Reads a drawing of what is set apart.
    pub fn drawing_read_apart(text: *const u8, text_length: usize, room: *mut u8, room_length: usize) -> u32;
}
