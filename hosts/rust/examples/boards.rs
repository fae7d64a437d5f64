//! What the newer board does, on a machine that remembers: two tasks with space numbers, and INVPCID.
//! Prints each lesson and checks it. Exits with 1 where anything differs.

use std::process::ExitCode;

use aalbrett::{Answer, Card, Machine, Question, Settings, READ, USER};
use aalbrett::{FORM, INVPCID_ADDRESS, INVPCID_ALL, INVPCID_LOCAL, INVPCID_NUMBER};
use aalbrett::{SPACE_NUMBER, UNKNOWN};

/// Bit 63 of a root load: nothing is dropped.
const DROPS_NOTHING: u64 = 1 << 63;

/// Space numbers on, 40 physical bits.
const NUMBERED: Settings = Settings {
    cr0: 0x8001_0001,
    cr3: 0x1000,
    cr4: 0x2_0020,
    efer: 0x900,
    width: 40,
};

/// Two tasks' tables: the first has a page of 4 KiB, the second one of 1 GiB at the same address.
const TASKS: [(u64, u64); 6] = [
    (0x1000, 0x2007),
    (0x2000, 0x3007),
    (0x3010, 0x4007),
    (0x4018, 0x5007),
    (0x6000, 0x7007),
    (0x7000, 0x4000_0087),
];

/// A board: a machine that remembers, guest memory, and whether all was right so far.
struct Board {
    machine: Machine,
    memory: Vec<u8>,
    right: bool,
}

impl Board {
    /// A board with these settings and table entries.
    fn new(settings: Settings, entries: &[(u64, u64)]) -> Board {
        let (answer, machine) = Machine::start(settings);
        let mut board = Board {
            machine,
            memory: vec![0; 32768],
            right: matches!(answer, Answer::Done { .. }),
        };
        for (at, entry) in entries {
            board.step(Card::store(*at, *entry));
        }
        board
    }

    /// One card's step.
    fn step(&mut self, card: Card) -> Answer {
        self.machine.step(&mut self.memory, &card.0)
    }

    /// Loads a root.
    fn load_root(&mut self, value: u64) {
        let answer = self.step(Card::load_root(value));
        self.right &= matches!(answer, Answer::Done { .. });
    }

    /// Reads as a user, which arrives at this physical address with so many entries read.
    fn arrives(&mut self, address: u64, physical: u64, known: u64) {
        let answer = self.step(Card::translate(Question {
            address,
            access: READ,
            mode: USER,
        }));
        self.right &= matches!(answer, Answer::Done { address, reads, .. } if (address, reads) == (physical, known));
    }

    /// INVPCID, which is refused with this number, or done where it is 0.
    fn invpcid(&mut self, kind: u64, number: u64, address: u64, known: u64) {
        self.right &= match self.machine.invpcid(kind, number, address) {
            Answer::Refused(refusal) => refusal == known,
            answer => known == 0 && matches!(answer, Answer::Done { .. }),
        };
    }

    /// Prints a lesson; gives whether all was right so far.
    fn lesson(&self, text: &str) -> bool {
        println!("{text}{}", if self.right { "" } else { " -- WRONG" });
        self.right
    }
}

/// A board on which both tasks, of numbers 1 and 2, read the same address.
fn tasks() -> Board {
    let mut board = Board::new(NUMBERED, &TASKS);
    board.load_root(0x1001);
    board.arrives(0x40_3010, 0x5010, 4);
    board.load_root(0x6002);
    board.arrives(0x40_3010, 0x4040_3010, 2);
    board
}

/// Nothing is lost on the way back, and a number is reused rightly only after a drop.
fn task_switch() -> bool {
    let mut board = tasks();
    board.load_root(DROPS_NOTHING | 0x1001);
    board.right &= board.machine.record.settings.cr3 == 0x1001;
    board.arrives(0x40_3010, 0x5010, 0);
    board.load_root(DROPS_NOTHING | 0x6002);
    board.arrives(0x40_3010, 0x4040_3010, 0);
    board.lesson("two tasks: nothing is lost on the way back");
    board.load_root(DROPS_NOTHING | 0x6001);
    board.arrives(0x40_3010, 0x5010, 0);
    board.load_root(0x6001);
    board.arrives(0x40_3010, 0x4040_3010, 2);
    board.lesson("a number reused without a drop shows the other task's page")
}

/// INVPCID drops what its kinds name, and no more.
fn drop_by_number() -> bool {
    let mut board = tasks();
    board.invpcid(INVPCID_ADDRESS, 1, 0x40_3abc, 0);
    board.arrives(0x40_3010, 0x4040_3010, 0);
    board.load_root(DROPS_NOTHING | 0x1001);
    board.arrives(0x40_3010, 0x5010, 4);
    board.invpcid(INVPCID_NUMBER, 2, 0, 0);
    board.arrives(0x40_3010, 0x5010, 0);
    for kind in [INVPCID_LOCAL, INVPCID_ALL] {
        board.invpcid(kind, 0, 0, 0);
        board.arrives(0x40_3010, 0x5010, 4);
    }
    board.invpcid(4, 4096, 0, UNKNOWN);
    board.invpcid(INVPCID_ADDRESS, 4096, 1 << 47, SPACE_NUMBER);
    board.invpcid(INVPCID_ADDRESS, 1, 1 << 47, FORM);
    board.lesson("INVPCID drops by address, by number, all but G, and all")
}

/// Gives every lesson, also after one that differs.
fn main() -> ExitCode {
    let lessons = [task_switch(), drop_by_number()];
    if lessons == [true; 2] {
        ExitCode::SUCCESS
    } else {
        ExitCode::FAILURE
    }
}
