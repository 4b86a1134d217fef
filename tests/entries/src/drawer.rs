//! Whoever writes and reads drawings: the entries, the reference, and the reference with a fault that is chosen.

use reference::drawing::{self, apart};
use station::raw::drawing as raw;

/// What a call returns, with the room as it is left; and what an image in hex says.
pub struct Drawer {
    pub write: fn(u64, &mut [u8]) -> u32,
    pub read: fn(&[u8], &mut [u8]) -> u32,
    pub write_apart: fn(u64, &mut [u8]) -> u32,
    pub read_apart: fn(&[u8], &mut [u8]) -> u32,
    pub image_in: fn(&[u8]) -> Option<(u64, Option<u64>)>,
}

pub const REFERENCE: Drawer = Drawer {
    write: |image, room| drawing::write(image, room).returned(),
    read: |text, room| drawing::read(text, room).returned(),
    write_apart: |parts, room| apart::write(parts, room).returned(),
    read_apart: |text, room| apart::read(text, room).returned(),
    image_in: drawing::image_in,
};

/// As the package `wrong` has it from the edits.
pub const WRONG: Drawer = Drawer {
    write: |image, room| wrong::drawing::write(image, room).returned(),
    read: |text, room| wrong::drawing::read(text, room).returned(),
    write_apart: |parts, room| wrong::drawing::apart::write(parts, room).returned(),
    read_apart: |text, room| wrong::drawing::apart::read(text, room).returned(),
    image_in: wrong::drawing::image_in,
};

/// No entry reads hex, so the reference stands for it.
pub const ENTRIES: Drawer = Drawer {
    write: |image, room| unsafe { raw::drawing_write(image, room.as_mut_ptr(), room.len()) },
    read: |text, room| unsafe { raw::drawing_read(text.as_ptr(), text.len(), room.as_mut_ptr(), room.len()) },
    write_apart: |parts, room| unsafe { raw::drawing_write_apart(parts, room.as_mut_ptr(), room.len()) },
    read_apart: |text, room| unsafe { raw::drawing_read_apart(text.as_ptr(), text.len(), room.as_mut_ptr(), room.len()) },
    ..REFERENCE
};
