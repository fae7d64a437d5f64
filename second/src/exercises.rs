//! Document 01's exercises with known results.

use crate::settings::Settings;
use crate::translate::{translate, FETCH, READ, SUPERVISOR, USER, WRITE};

const ENTRIES: [(usize, u64); 13] = [
    (0x1000, 0x2007),
    (0x1008, 0x2005),
    (0x2000, 0x3007),
    (0x2008, 0x8000_0087),
    (0x2018, 0x9007),
    (0x3010, 0x4007),
    (0x3018, 0x80_0087),
    (0x3020, 0x80_2087),
    (0x3028, 0x80_1087),
    (0x4018, 0x5007),
    (0x4030, 0x6005),
    (0x4038, 0x8000_0000_0000_7007),
    (0x4040, 0x100_0000_8007),
];

/// The settings of the exercises.
fn settings() -> Settings {
    Settings {
        cr0: 0x8001_0001,
        cr3: 0x1000,
        cr4: 0x20,
        efer: 0x900,
        width: 40,
    }
}

/// The memory of the exercises.
fn memory() -> Vec<u8> {
    let mut memory = vec![0; 32768];
    for (address, entry) in ENTRIES {
        memory[address..address + 8].copy_from_slice(&entry.to_le_bytes());
    }
    memory
}

/// The entries that differ after a translation, with what they became.
fn changes(memory: &[u8]) -> Vec<(usize, u64)> {
    let before = self::memory();
    let words = memory.chunks_exact(8).zip(before.chunks_exact(8));
    let differing = words.enumerate().filter(|(_, (new, old))| new != old);
    differing
        .map(|(index, (new, _))| (8 * index, u64::from_le_bytes(new.try_into().unwrap())))
        .collect()
}

/// Asserts answer and changed entries of one question asked afresh, with memory type index 0.
fn expect(
    settings: Settings,
    asked: (u64, u64, u64),
    (answer, value, detail, entries): (u64, u64, u64, u64),
    changed: &[(usize, u64)],
) {
    let known = [answer, value, detail, entries, 0];
    expect_numbers(settings, asked, known, changed);
}

/// Asserts the five numbers and the changed entries of one question asked afresh.
fn expect_numbers(
    settings: Settings,
    (address, access, mode): (u64, u64, u64),
    known: [u64; 5],
    changed: &[(usize, u64)],
) {
    let mut memory = memory();
    let given = translate(&settings, address, access, mode, &mut memory);
    assert_eq!(given.numbers(), known, "address {address:#x}");
    assert_eq!(changes(&memory), changed, "address {address:#x}");
}

/// Successful reads of the three sizes.
#[test]
fn reads_of_each_size() {
    let small = [
        (0x1000, 0x2027),
        (0x2000, 0x3027),
        (0x3010, 0x4027),
        (0x4018, 0x5027),
    ];
    let asked = (0x40_3ABC, READ, USER);
    expect(settings(), asked, (0, 0x5ABC, 1, 4), &small);
    let medium = [(0x1000, 0x2027), (0x2000, 0x3027), (0x3018, 0x80_00A7)];
    let asked = (0x61_2345, READ, USER);
    expect(settings(), asked, (0, 0x81_2345, 2, 3), &medium);
    let large = [(0x1000, 0x2027), (0x2008, 0x8000_00A7)];
    let asked = (0x5234_5678, READ, USER);
    expect(settings(), asked, (0, 0x9234_5678, 3, 2), &large);
}

/// Bit 13 of a large page is reserved, bit 12 is PAT and not part of the address.
#[test]
fn low_bits_of_large_pages() {
    let asked = (0x80_0000, READ, USER);
    expect(settings(), asked, (5, 13, 2, 3), &[]);
    let changed = [(0x1000, 0x2027), (0x2000, 0x3027), (0x3028, 0x80_10A7)];
    let asked = (0xA0_0010, READ, USER);
    expect_numbers(settings(), asked, [0, 0x80_0010, 2, 3, 4], &changed);
}

/// A write to a read-only page, by user, supervisor and without WP.
#[test]
fn writes_to_a_read_only_page() {
    expect(settings(), (0x40_6000, WRITE, USER), (5, 7, 1, 4), &[]);
    let asked = (0x40_6000, WRITE, SUPERVISOR);
    expect(settings(), asked, (5, 3, 1, 4), &[]);
    let free = Settings {
        cr0: 0x8000_0001,
        ..settings()
    };
    let changed = [
        (0x1000, 0x2027),
        (0x2000, 0x3027),
        (0x3010, 0x4027),
        (0x4030, 0x6065),
    ];
    expect(free, asked, (0, 0x6000, 1, 4), &changed);
}

/// A missing entry below a read-only one decides the fault.
#[test]
fn a_missing_entry_below_a_read_only_one() {
    let asked = (0x80_8000_0000, WRITE, USER);
    expect(settings(), asked, (5, 6, 3, 2), &[]);
}

/// XD forbids fetches with NXE, and is reserved without.
#[test]
fn execute_disable() {
    expect(settings(), (0x40_7000, FETCH, USER), (5, 21, 1, 4), &[]);
    let without = Settings {
        efer: 0x100,
        ..settings()
    };
    expect(without, (0x40_7000, READ, USER), (5, 13, 1, 4), &[]);
}

/// A frame above M is reserved, and served with one more bit.
#[test]
fn a_frame_above_the_width() {
    let asked = (0x40_8000, READ, SUPERVISOR);
    expect(settings(), asked, (5, 9, 1, 4), &[]);
    let wider = Settings {
        width: 41,
        ..settings()
    };
    let changed = [
        (0x1000, 0x2027),
        (0x2000, 0x3027),
        (0x3010, 0x4027),
        (0x4040, 0x100_0000_8027),
    ];
    expect(wider, asked, (0, 0x100_0000_8000, 1, 4), &changed);
}

/// A table outside memory.
#[test]
fn a_table_outside() {
    for mode in [SUPERVISOR, USER] {
        let asked = (0xC000_0000, READ, mode);
        expect(settings(), asked, (4, 0x9000, 2, 2), &[]);
    }
}

/// Addresses beside the canonical hole.
#[test]
fn forms_of_addresses() {
    for mode in [SUPERVISOR, USER] {
        let asked = (0x0000_8000_0000_0000, READ, mode);
        expect(settings(), asked, (3, 0, 0, 0), &[]);
    }
    let asked = (0xFFFF_8000_0000_0000, READ, SUPERVISOR);
    expect(settings(), asked, (5, 0, 4, 1), &[]);
}

/// M 31 and 53 are refused, 32 and 52 served.
#[test]
fn widths() {
    let changed = [
        (0x1000, 0x2027),
        (0x2000, 0x3027),
        (0x3010, 0x4027),
        (0x4018, 0x5027),
    ];
    let asked = (0x40_3ABC, READ, USER);
    for width in [31, 32, 52, 53] {
        let settings = Settings {
            width,
            ..settings()
        };
        if (32..=52).contains(&width) {
            expect(settings, asked, (0, 0x5ABC, 1, 4), &changed);
        } else {
            expect(settings, asked, (2, 0, 0, 0), &[]);
        }
    }
}

/// Tests come in the order 1, 2, 3, and paging off has its own form.
#[test]
fn order_of_tests_and_paging_off() {
    let refused = Settings {
        width: 31,
        ..settings()
    };
    let hole = 0x0000_8000_0000_0000;
    expect(refused, (hole, 3, USER), (1, 0, 0, 0), &[]);
    expect(refused, (hole, READ, 2), (1, 0, 0, 0), &[]);
    expect(refused, (hole, READ, USER), (2, 0, 0, 0), &[]);
    let off = Settings {
        cr0: 0,
        ..settings()
    };
    let last = 0xFFFF_FFFF;
    expect(off, (last, WRITE, USER), (0, last, 0, 0), &[]);
    expect(off, (last + 1, READ, USER), (3, 0, 0, 0), &[]);
}

/// A table that points at itself is read four times and marked once.
#[test]
fn a_table_that_points_at_itself() {
    let mut memory = vec![0; 32768];
    memory[0x1000..0x1008].copy_from_slice(&0x1007u64.to_le_bytes());
    let given = translate(&settings(), 0xABC, WRITE, USER, &mut memory);
    assert_eq!(given.line(1), "1 0 0000000000001abc 1 4 0");
    assert_eq!(memory[0x1000..0x1003], [0x67, 0x10, 0]);
}

/// The tables with one entry changed, and the answer to a supervisor's read.
fn with_entry(at: usize, entry: u64, address: u64) -> [u64; 5] {
    let mut memory = memory();
    memory[at..at + 8].copy_from_slice(&entry.to_le_bytes());
    translate(&settings(), address, READ, SUPERVISOR, &mut memory).numbers()
}

/// All eight memory type indices at all three sizes, from the last entry alone.
#[test]
fn memory_types() {
    let pages = [
        (0x4018, 0x5007, 1 << 7, 0x40_3000, [0, 0x5000, 1, 4]),
        (0x3018, 0x80_0087, 1 << 12, 0x60_0000, [0, 0x80_0000, 2, 3]),
        (
            0x2008,
            0x8000_0087,
            1 << 12,
            0x4000_0000,
            [0, 0x8000_0000, 3, 2],
        ),
    ];
    for (at, entry, attribute, address, known) in pages {
        for memory_type in 0..8 {
            let bits = ((memory_type & 3) << 3) | ((memory_type >> 2) * attribute);
            let given = with_entry(at, entry | bits, address);
            assert_eq!(given[..4], known);
            assert_eq!(given[4], memory_type);
        }
        let upper = with_entry(0x1000, 0x2007 | 0x18, address);
        assert_eq!(upper[4], 0);
    }
}

/// A refusal has memory type index 0, whatever its last entry holds, and so has paging off.
#[test]
fn no_memory_type() {
    assert_eq!(with_entry(0x4018, 0x501E, 0x40_3000), [5, 0, 1, 4, 0]);
    assert_eq!(with_entry(0x3018, 0x80_309F, 0x60_0000), [5, 9, 2, 3, 0]);
    let mut memory = memory();
    let off = Settings {
        cr0: 0,
        ..settings()
    };
    let given = translate(&off, 0x40_3000, READ, USER, &mut memory);
    assert_eq!(given.numbers(), [0, 0x40_3000, 0, 0, 0]);
}
