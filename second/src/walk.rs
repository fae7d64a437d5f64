//! The path of a walk through the tables, without rights and without marks.

use crate::settings::Settings;

pub const PRESENT: u64 = 1 << 0;
pub const WRITABLE: u64 = 1 << 1;
pub const USER: u64 = 1 << 2;
pub const WRITE_THROUGH: u64 = 1 << 3;
pub const CACHE_DISABLE: u64 = 1 << 4;
pub const ACCESSED: u64 = 1 << 5;
pub const DIRTY: u64 = 1 << 6;
pub const LARGE: u64 = 1 << 7;
pub const GLOBAL: u64 = 1 << 8;
pub const EXECUTE_DISABLE: u64 = 1 << 63;
/// PAT of an entry of level 1, and of a large page.
pub const ATTRIBUTE: u64 = 1 << 7;
pub const LARGE_ATTRIBUTE: u64 = 1 << 12;
/// Bits 51:12 of an entry.
pub const FRAME: u64 = (1 << 52) - (1 << 12);

/// One entry read: its level, its address in memory and what it held.
#[derive(Clone, Copy, Debug)]
pub struct Step {
    pub level: u64,
    pub address: u64,
    pub entry: u64,
}

/// How a walk ends; size and level are the paper's numbers.
#[derive(Clone, Copy, Debug)]
pub enum End {
    Page { size: u64 },
    Outside { address: u64, level: u64 },
    Missing { level: u64 },
    Reserved { level: u64 },
}

impl End {
    /// The level at which the walk ends.
    pub fn level(&self) -> u64 {
        match *self {
            End::Page { size } => size,
            End::Outside { level, .. } | End::Missing { level } | End::Reserved { level } => level,
        }
    }
}

/// The entries read, from level 4 down, and the end.
#[derive(Clone, Debug)]
pub struct Walk {
    pub steps: Vec<Step>,
    pub end: End,
}

impl Walk {
    /// The physical address that the last entry gives for the virtual address.
    pub fn physical(&self, address: u64) -> u64 {
        let last = self.steps[self.steps.len() - 1];
        let offset = (1 << shift(last.level)) - 1;
        (last.entry & FRAME & !offset) | (address & offset)
    }

    /// The memory type index that the last entry gives.
    pub fn memory_type(&self) -> u64 {
        let last = self.steps[self.steps.len() - 1];
        memory_type(last.entry, last.level)
    }
}

/// The lowest index bit of the level, which is also the logarithm of its page.
pub fn shift(level: u64) -> u64 {
    12 + 9 * (level - 1)
}

/// The address of the entry that the virtual address picks in a table.
pub fn entry_address(table: u64, level: u64, address: u64) -> u64 {
    table + 8 * ((address >> shift(level)) & 0x1FF)
}

/// The 8 bytes at the address, or nothing if one of them is outside memory.
pub fn read_entry(memory: &[u8], address: u64) -> Option<u64> {
    let start = usize::try_from(address).ok()?;
    let bytes = memory.get(start..start.checked_add(8)?)?;
    Some(u64::from_le_bytes(bytes.try_into().ok()?))
}

/// Whether a present entry ends the walk with a page.
pub fn is_page(entry: u64, level: u64) -> bool {
    level == 1 || (level < 4 && entry & LARGE != 0)
}

/// The memory type index of an entry that maps a page: 4 times PAT plus 2 times PCD plus PWT.
pub fn memory_type(entry: u64, level: u64) -> u64 {
    let attribute = if level == 1 {
        ATTRIBUTE
    } else {
        LARGE_ATTRIBUTE
    };
    let bit = |mask: u64| u64::from(entry & mask != 0);
    4 * bit(attribute) + 2 * bit(CACHE_DISABLE) + bit(WRITE_THROUGH)
}

/// The bits that must be clear in a present entry of the level.
pub fn reserved_bits(settings: &Settings, entry: u64, level: u64) -> u64 {
    let above = (1 << 52) - (1 << settings.width);
    let execute = if settings.no_execute() {
        0
    } else {
        EXECUTE_DISABLE
    };
    let own = match level {
        4 => LARGE,
        2 | 3 if is_page(entry, level) => (1 << shift(level)) - (1 << 13),
        _ => 0,
    };
    above | execute | own
}

/// The walk from the root with served settings and a canonical address.
pub fn walk(settings: &Settings, address: u64, memory: &[u8]) -> Walk {
    let mut steps = Vec::with_capacity(4);
    let mut table = settings.root();
    let mut level = 4;
    loop {
        let at = entry_address(table, level, address);
        let Some(entry) = read_entry(memory, at) else {
            let end = End::Outside { address: at, level };
            return Walk { steps, end };
        };
        steps.push(Step {
            level,
            address: at,
            entry,
        });
        if entry & PRESENT == 0 {
            let end = End::Missing { level };
            return Walk { steps, end };
        }
        if entry & reserved_bits(settings, entry, level) != 0 {
            let end = End::Reserved { level };
            return Walk { steps, end };
        }
        if is_page(entry, level) {
            let end = End::Page { size: level };
            return Walk { steps, end };
        }
        table = entry & FRAME;
        level -= 1;
    }
}
