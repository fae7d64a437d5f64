//! Builds page tables in a buffer, asks for walks of them, prints what each was answered and which
//! entries it changed, and checks that. Exits with 1 where anything differs.

use std::process::ExitCode;

use aalbrett::{byte, walk, Answer, Question, Settings};
use aalbrett::{EXTENSION, FORM, ROOT, UNKNOWN, WIDTH};
use aalbrett::{FETCH, READ, SUPERVISOR, USER, WRITE};

const TABLES: [(usize, u64); 13] = [
    (0x1000, 0x2007),
    (0x1008, 0x2005),
    (0x2000, 0x3007),
    (0x2008, 0x8000_0087),
    (0x2018, 0x9007),
    (0x3010, 0x4007),
    (0x3018, 0x80_0087),
    (0x3020, 0x80_2087),
    (0x3028, 0x80_1087),
    (0x4018, 0x5007),
    (0x4030, 0x6005),
    (0x4038, 0x8000_0000_0000_7007),
    (0x4040, 0x100_0000_8007),
];

/// Paging on with write protection and execute disable, 40 physical bits.
const PAGING: Settings = Settings {
    cr0: 0x8001_0001,
    cr3: 0x1000,
    cr4: 0x20,
    efer: 0x900,
    width: 40,
};
const UNPROTECTED: Settings = Settings {
    cr0: 0x8000_0001,
    ..PAGING
};
const EXECUTABLE: Settings = Settings {
    efer: 0x100,
    ..PAGING
};
const NO_PAGING: Settings = Settings { cr0: 0, ..PAGING };
const LARGE_ROOT: Settings = Settings {
    cr3: 1 << 40,
    ..PAGING
};
const UNPREPARED: Settings = Settings {
    cr0: 0x8001_0000,
    ..PAGING
};
const EXTENDED: Settings = Settings {
    cr4: 0x10_0020,
    ..PAGING
};

/// A walk with its known answer and the entries that it changes.
struct Exercise {
    settings: Settings,
    question: Question,
    answer: Answer,
    changes: &'static [(usize, u64)],
}

/// The paging settings with another physical width.
const fn width(width: u64) -> Settings {
    Settings { width, ..PAGING }
}

/// The exercise of these parts.
const fn exercise(
    settings: Settings,
    (address, access, mode): (u64, u64, u64),
    answer: Answer,
    changes: &'static [(usize, u64)],
) -> Exercise {
    Exercise {
        settings,
        question: Question {
            address,
            access,
            mode,
        },
        answer,
        changes,
    }
}

/// A translation to an address in a page of a size, with memory type index 0.
const fn done(address: u64, size: u64, reads: u64) -> Answer {
    Answer::Done {
        address,
        size,
        reads,
        memory_type: 0,
    }
}

/// A page fault.
const fn fault(code: u64, level: u64, reads: u64) -> Answer {
    Answer::Fault { code, level, reads }
}

const SMALL: [(usize, u64); 4] = [
    (0x1000, 0x2027),
    (0x2000, 0x3027),
    (0x3010, 0x4027),
    (0x4018, 0x5027),
];
const WRITTEN: [(usize, u64); 4] = [
    (0x1000, 0x2027),
    (0x2000, 0x3027),
    (0x3010, 0x4027),
    (0x4018, 0x5067),
];
const MEDIUM: [(usize, u64); 3] = [(0x1000, 0x2027), (0x2000, 0x3027), (0x3018, 0x80_00a7)];
const MEDIUM_PAT: [(usize, u64); 3] = [(0x1000, 0x2027), (0x2000, 0x3027), (0x3028, 0x80_10a7)];
const LARGE: [(usize, u64); 2] = [(0x1000, 0x2027), (0x2008, 0x8000_00a7)];
const FREE: [(usize, u64); 4] = [
    (0x1000, 0x2027),
    (0x2000, 0x3027),
    (0x3010, 0x4027),
    (0x4030, 0x6065),
];
const HIGH: [(usize, u64); 4] = [
    (0x1000, 0x2027),
    (0x2000, 0x3027),
    (0x3010, 0x4027),
    (0x4040, 0x100_0000_8027),
];

const EXERCISES: [Exercise; 27] = [
    exercise(PAGING, (0x40_3abc, READ, USER), done(0x5abc, 1, 4), &SMALL),
    exercise(
        PAGING,
        (0x40_3abc, WRITE, USER),
        done(0x5abc, 1, 4),
        &WRITTEN,
    ),
    exercise(
        PAGING,
        (0x61_2345, READ, USER),
        done(0x81_2345, 2, 3),
        &MEDIUM,
    ),
    exercise(
        PAGING,
        (0x5234_5678, READ, USER),
        done(0x9234_5678, 3, 2),
        &LARGE,
    ),
    exercise(PAGING, (0x80_0000, READ, USER), fault(13, 2, 3), &[]),
    exercise(
        PAGING,
        (0xa0_0010, READ, USER),
        Answer::Done {
            address: 0x80_0010,
            size: 2,
            reads: 3,
            memory_type: 4,
        },
        &MEDIUM_PAT,
    ),
    exercise(PAGING, (0x40_6000, WRITE, USER), fault(7, 1, 4), &[]),
    exercise(PAGING, (0x40_6000, WRITE, SUPERVISOR), fault(3, 1, 4), &[]),
    exercise(
        UNPROTECTED,
        (0x40_6000, WRITE, SUPERVISOR),
        done(0x6000, 1, 4),
        &FREE,
    ),
    exercise(PAGING, (0x80_8000_0000, WRITE, USER), fault(6, 3, 2), &[]),
    exercise(PAGING, (0x40_7000, FETCH, USER), fault(21, 1, 4), &[]),
    exercise(EXECUTABLE, (0x40_7000, READ, USER), fault(13, 1, 4), &[]),
    exercise(PAGING, (0x40_8000, READ, SUPERVISOR), fault(9, 1, 4), &[]),
    exercise(
        width(41),
        (0x40_8000, READ, SUPERVISOR),
        done(0x100_0000_8000, 1, 4),
        &HIGH,
    ),
    exercise(
        PAGING,
        (0xc000_0000, READ, USER),
        Answer::Outside {
            entry: 0x9000,
            level: 2,
            reads: 2,
        },
        &[],
    ),
    exercise(
        PAGING,
        (0x8000_0000_0000, READ, USER),
        Answer::Refused(FORM),
        &[],
    ),
    exercise(
        PAGING,
        (0xffff_8000_0000_0000, READ, SUPERVISOR),
        fault(0, 4, 1),
        &[],
    ),
    exercise(
        width(31),
        (0x40_3abc, READ, USER),
        Answer::Refused(WIDTH),
        &[],
    ),
    exercise(
        width(32),
        (0x40_3abc, READ, USER),
        done(0x5abc, 1, 4),
        &SMALL,
    ),
    exercise(
        width(52),
        (0x40_3abc, READ, USER),
        done(0x5abc, 1, 4),
        &SMALL,
    ),
    exercise(
        width(53),
        (0x40_3abc, READ, USER),
        Answer::Refused(WIDTH),
        &[],
    ),
    exercise(
        LARGE_ROOT,
        (0x40_3abc, READ, USER),
        Answer::Refused(ROOT),
        &[],
    ),
    exercise(
        UNPREPARED,
        (0x40_3abc, READ, USER),
        Answer::Refused(aalbrett::PAGING),
        &[],
    ),
    exercise(
        EXTENDED,
        (0x40_3abc, READ, USER),
        Answer::Refused(EXTENSION),
        &[],
    ),
    exercise(PAGING, (0x40_3abc, 3, USER), Answer::Refused(UNKNOWN), &[]),
    exercise(
        NO_PAGING,
        (0x40_3abc, READ, USER),
        done(0x40_3abc, 0, 0),
        &[],
    ),
    exercise(
        NO_PAGING,
        (0x1_0000_0000, READ, USER),
        Answer::Refused(FORM),
        &[],
    ),
];

/// Memory with the tables laid out.
fn tables() -> Vec<u8> {
    let mut memory = vec![0; 32768];
    for (at, entry) in TABLES {
        memory[at..at + 8].copy_from_slice(&entry.to_le_bytes());
    }
    memory
}

/// The entries of a memory that differ from the tables, with what they are now.
fn changes(memory: &[u8]) -> Vec<(usize, u64)> {
    let before = tables();
    let number = |at: usize| u64::from_le_bytes(memory[at..at + 8].try_into().unwrap());
    let at = (0..memory.len()).step_by(8);
    at.filter(|at| memory[*at..at + 8] != before[*at..at + 8])
        .map(|at| (at, number(at)))
        .collect()
}

/// What is to be said where a translation leads out of the memory lent.
fn remark(answer: Answer, memory: &mut [u8]) -> &'static str {
    match answer {
        Answer::Done { address, .. } if byte(memory, address).is_none() => " (not in memory)",
        _ => "",
    }
}

/// Runs and prints one exercise on fresh tables; gives whether answer and memory are as known.
fn run(exercise: &Exercise) -> bool {
    let mut memory = tables();
    let answer = walk(exercise.settings, exercise.question, &mut memory);
    let changes = changes(&memory);
    let remark = remark(answer, &mut memory);
    print!("{}: {answer}{remark}", exercise.question);
    for (at, entry) in &changes {
        print!("; {at:#x} becomes {entry:#x}");
    }
    println!();
    let right = answer == exercise.answer && changes == exercise.changes;
    if !right {
        println!(
            "WRONG: known are {:x?} and {:x?}",
            exercise.answer, exercise.changes
        );
    }
    right
}

/// Runs every exercise, also after one that differs.
fn main() -> ExitCode {
    let wrong = EXERCISES.iter().filter(|exercise| !run(exercise)).count();
    if wrong == 0 {
        ExitCode::SUCCESS
    } else {
        ExitCode::FAILURE
    }
}
