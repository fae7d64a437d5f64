//! The first exercise on a machine that remembers: press, and the driver counts in its page; move the
//! page, press again, and the old page still counts; drop the page, press again, and the new one does.
//! Then one drop of a large page, and a page that is uncached. Prints each step and checks it. Exits with
//! 1 where anything differs.

use std::process::ExitCode;

use aalbrett::{byte, Answer, Card, Machine, Place, Question, Settings, READ, USER, WRITE};

/// The driver's counter, its page's last table entry, and where the page lies before and after.
const COUNTER: u64 = 0x40_3ABC;
const ENTRY: u64 = 0x4018;
const OLD_PAGE: usize = 0x5000;
const NEW_PAGE: usize = 0x6000;
const PAGE: usize = 4096;

/// Paging on with write protection and execute disable, 40 physical bits.
const SETTINGS: Settings = Settings {
    cr0: 0x8001_0001,
    cr3: 0x1000,
    cr4: 0x20,
    efer: 0x900,
    width: 40,
};

/// The emulator: a machine that remembers, and guest memory.
struct Emulator {
    machine: Machine,
    memory: Vec<u8>,
}

impl Emulator {
    /// One card's step.
    fn step(&mut self, card: Card) -> Answer {
        self.machine.step(&mut self.memory, &card.0)
    }

    /// A press: the driver writes its counter where the machine says that it lies, if that is inside memory.
    fn press(&mut self) -> Answer {
        let answer = self.step(Card::translate(Question {
            address: COUNTER,
            access: WRITE,
            mode: USER,
        }));
        if let Answer::Done { address, .. } = answer {
            if let Some(count) = byte(&mut self.memory, address) {
                *count += 1;
            }
        }
        answer
    }

    /// The count in a page.
    fn count(&self, page: usize) -> u8 {
        self.memory[page + COUNTER as usize % PAGE]
    }

    /// Presses and prints; gives whether the press arrived where it is known to, with the counts known.
    fn pressed(&mut self, page: usize, reads: u64, counts: (u8, u8)) -> bool {
        let answer = self.press();
        let known = Answer::Done {
            address: (page + COUNTER as usize % PAGE) as u64,
            size: 1,
            reads,
            memory_type: 0,
        };
        let (old, new) = (self.count(OLD_PAGE), self.count(NEW_PAGE));
        println!("press: {answer}; counted in the old page {old}, in the new {new}");
        right((answer, (old, new)) == (known, counts))
    }

    /// Prints what is remembered of the counter's page; gives whether it is the frame known.
    fn remembered(&self, frame: Option<u64>) -> bool {
        let tag = COUNTER / PAGE as u64;
        let place = self.machine.record.sets[tag as usize % 16][0];
        let marked = place.flags & Place::MARKED != 0;
        let held = (marked && place.tag == tag).then_some(place.frame);
        match held {
            Some(frame) => println!("remembered: page {tag:#x} in frame {frame:#x}"),
            None => println!("remembered: nothing of page {tag:#x}"),
        }
        right(held == frame)
    }

    /// Whether the piece of an address is remembered.
    fn holds(&self, address: u64) -> bool {
        let tag = address / PAGE as u64;
        let places = self.machine.record.sets[tag as usize % 16];
        places
            .iter()
            .any(|place| place.flags & Place::MARKED != 0 && place.tag == tag)
    }

    /// Reads at an address.
    fn read(&mut self, address: u64) -> Answer {
        self.step(Card::translate(Question {
            address,
            access: READ,
            mode: USER,
        }))
    }

    /// Gives whether the display's page is told as uncached, by the walk and from what is remembered.
    fn display(&mut self) -> bool {
        self.step(Card::store(0x4020, 0x7017));
        let known = |reads| Answer::Done {
            address: 0x7000,
            size: 1,
            reads,
            memory_type: 2,
        };
        let answers = [self.read(0x40_4000), self.read(0x40_4000)];
        println!("the display's page, PCD alone: {}", answers[0]);
        right(answers == [known(4), known(0)])
    }

    /// Gives whether one drop takes all pieces of a 2 MiB page and leaves the next page.
    fn large_page(&mut self) -> bool {
        self.step(Card::store(0x3018, 0x80_0087));
        self.step(Card::store(0x3020, 0xa0_0087));
        let asked = [0x60_0000, 0x7f_f000, 0x80_0000];
        for address in asked {
            self.read(address);
        }
        let before = asked.map(|address| self.holds(address));
        self.step(Card::drop_page(0x65_1234));
        let after = asked.map(|address| self.holds(address));
        println!("one drop of a 2 MiB page: of two pieces and the next page {after:?} are held");
        right((before, after) == ([true; 3], [false, false, true]))
    }
}

/// Prints where something is wrong.
fn right(right: bool) -> bool {
    if !right {
        println!("WRONG");
    }
    right
}

/// Runs the exercise to its end, also where a step differs.
fn main() -> ExitCode {
    let (_, machine) = Machine::start(SETTINGS);
    let mut emulator = Emulator {
        machine,
        memory: vec![0; 32768],
    };
    for (at, entry) in [
        (0x1000, 0x2007),
        (0x2000, 0x3007),
        (0x3010, 0x4007),
        (ENTRY, OLD_PAGE as u64 | 7),
    ] {
        emulator.step(Card::store(at, entry));
    }
    let mut all = emulator.remembered(None);
    all &= emulator.pressed(OLD_PAGE, 4, (1, 0));
    all &= emulator.remembered(Some(5));
    println!("the page is moved: copied, and its table entry changed");
    emulator
        .memory
        .copy_within(OLD_PAGE..OLD_PAGE + PAGE, NEW_PAGE);
    emulator.step(Card::store(ENTRY, NEW_PAGE as u64 | 7));
    all &= emulator.pressed(OLD_PAGE, 0, (2, 1));
    println!("the page is dropped");
    emulator.step(Card::drop_page(COUNTER));
    all &= emulator.remembered(None);
    all &= emulator.pressed(NEW_PAGE, 4, (2, 2));
    all &= emulator.remembered(Some(6));
    all &= emulator.large_page();
    all &= emulator.display();
    if all {
        ExitCode::SUCCESS
    } else {
        ExitCode::FAILURE
    }
}
