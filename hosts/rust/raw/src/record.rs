//! The machine's record, with the layout that hosts/aalbrett.h gives to C.

use std::mem::{align_of, offset_of, size_of};

/// The registers and the physical width M in bits.
#[repr(C)]
#[derive(Clone, Copy, Debug, Default, PartialEq, Eq)]
pub struct Settings {
    pub cr0: u64,
    pub cr3: u64,
    pub cr4: u64,
    pub efer: u64,
    pub width: u64,
}

/// A remembered translation of one 4 KiB piece of a page.
#[repr(C)]
#[derive(Clone, Copy, Debug, Default, PartialEq, Eq)]
pub struct Place {
    pub tag: u64,
    pub frame: u64,
    pub size: u8,
    pub flags: u8,
    pub memory_type: u8,
    pub number: u16,
}

/// The bits of a place's flags: its rights, D, G, and that it is marked; the other two count for nothing.
impl Place {
    pub const WRITE: u8 = 1;
    pub const USER: u8 = 2;
    pub const FETCH: u8 = 4;
    pub const DIRTY: u8 = 8;
    pub const GLOBAL: u8 = 16;
    pub const MARKED: u8 = 32;
}

/// Settings and what is remembered: 16 sets of four places, the one filled last in front.
#[repr(C)]
#[derive(Clone, Copy, Debug, Default, PartialEq, Eq)]
pub struct Machine {
    pub settings: Settings,
    pub sets: [[Place; 4]; 16],
}

const _: () = {
    assert!(size_of::<Machine>() == 1576 && align_of::<Machine>() == 8);
    assert!(offset_of!(Machine, settings.cr0) == 0);
    assert!(offset_of!(Machine, settings.cr3) == 8);
    assert!(offset_of!(Machine, settings.cr4) == 16);
    assert!(offset_of!(Machine, settings.efer) == 24);
    assert!(offset_of!(Machine, settings.width) == 32);
    assert!(offset_of!(Machine, sets) == 40);
    assert!(size_of::<Place>() == 24 && align_of::<Place>() == 8);
    assert!(offset_of!(Place, tag) == 0);
    assert!(offset_of!(Place, frame) == 8);
    assert!(offset_of!(Place, size) == 16);
    assert!(offset_of!(Place, flags) == 17);
    assert!(offset_of!(Place, memory_type) == 18);
    assert!(offset_of!(Place, number) == 20);
};
