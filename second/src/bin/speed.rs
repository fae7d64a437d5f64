//! Times the product's uncached walk and its remembered translations beside fast ones of this program.

use std::hint::black_box;
use std::time::Instant;

use aalbrett_raw::{self as raw, aalbrett_walk, timing_translations};
use second::answer::Answer;
use second::card::{Card, CARD};
use second::case::store;
use second::fast::fast_walk;
use second::fast_cache::{self, fast_translations, FastMachine, Translations};
use second::host::{call, HostWalk, Question};
use second::random::Random;
use second::record::raw_settings;
use second::settings::Settings;
use second::translate::{FETCH, READ, SUPERVISOR, USER, WRITE};

const STEPS: usize = 16;
const QUESTIONS: usize = 64;
const REPEATS: usize = 16;
const ROUNDS: usize = 1000;
const TURNS: u64 = 1 << 14;
const SETTINGS: Settings = Settings {
    cr0: 0x8001_0001,
    cr3: 0x1000,
    cr4: 0x20,
    efer: 0x900,
    width: 40,
};

/// A kind of question: its name, the answer's number and detail, and its indices.
struct Kind {
    name: &'static str,
    access: u64,
    mode: u64,
    expected: (u64, u64),
    /// The first of 64 indices at levels 3, 2 and 1.
    indices: [u64; 3],
}

/// The kind of that name.
const fn kind(
    name: &'static str,
    (access, mode): (u64, u64),
    expected: (u64, u64),
    indices: [u64; 3],
) -> Kind {
    Kind {
        name,
        access,
        mode,
        expected,
        indices,
    }
}

const KINDS: [Kind; 12] = [
    kind("4 KiB read", (READ, USER), (0, 1), [0, 0, 0]),
    kind("4 KiB write", (WRITE, USER), (0, 1), [0, 0, 0]),
    kind("4 KiB fetch", (FETCH, SUPERVISOR), (0, 1), [0, 0, 0]),
    kind("2 MiB read", (READ, USER), (0, 2), [0, 128, 0]),
    kind("2 MiB write", (WRITE, USER), (0, 2), [0, 128, 0]),
    kind("1 GiB read", (READ, USER), (0, 3), [128, 0, 0]),
    kind("1 GiB write", (WRITE, USER), (0, 3), [128, 0, 0]),
    kind("missing", (READ, USER), (5, 1), [0, 0, 64]),
    kind("reserved", (READ, USER), (5, 1), [0, 0, 128]),
    kind("rights", (WRITE, USER), (5, 1), [0, 0, 192]),
    kind("outside", (READ, USER), (4, 1), [0, 64, 0]),
    kind("outside at level 2", (READ, USER), (4, 2), [64, 0, 0]),
];

/// Tables in which 64 indices of each level lead to each kind.
fn memory() -> Vec<u8> {
    let mut memory = vec![0; 32768];
    for index in 0..512 {
        let at = 8 * index;
        store(&mut memory, 0x1000 + at, 0x2007);
        let third = match index / 64 {
            0 => 0x3007,
            1 => 0x9007,
            _ => 0x87 | (index % 256) << 30,
        };
        store(&mut memory, 0x2000 + at, third);
        let second = match index / 64 {
            0 => 0x4007,
            1 => 0x9007,
            _ => 0x87 | index << 21,
        };
        store(&mut memory, 0x3000 + at, second);
        let first = match index / 64 {
            0 => 0x5007 + (index << 12),
            1 => 0,
            2 => 0x7 | 1 << 45,
            _ => 0x6005,
        };
        store(&mut memory, 0x4000 + at, first);
    }
    memory
}

/// The questions of one kind.
fn questions(random: &mut Random, kind: &Kind) -> Vec<Question> {
    let question = |random: &mut Random| {
        let mut address = random.below(256) << 39 | random.below(4096);
        for (first, shift) in kind.indices.iter().zip([30, 21, 12]) {
            address |= (first + random.below(64)) << shift;
        }
        Question {
            address,
            access: kind.access,
            mode: kind.mode,
        }
    };
    (0..QUESTIONS).map(|_| question(random)).collect()
}

/// Asserts that the walk gives the kind's answer to each question.
fn check(walk: HostWalk, kind: &Kind, questions: &[Question], memory: &mut [u8]) {
    for question in questions {
        let mut answer = [0; Answer::BYTES];
        let number = call(walk, &SETTINGS, question, memory, &mut answer);
        let found = (number, u64::from(answer[16]));
        assert_eq!(found, kind.expected, "{} {question:x?}", kind.name);
    }
}

/// The nanoseconds of one call, on the mean of all questions.
fn time(walk: HostWalk, questions: &[Question], memory: &mut [u8]) -> f64 {
    let mut answer = [0; Answer::BYTES];
    let start = Instant::now();
    for _ in 0..REPEATS {
        for question in questions {
            black_box(call(walk, &SETTINGS, question, memory, &mut answer));
        }
    }
    start.elapsed().as_nanos() as f64 / (REPEATS * questions.len()) as f64
}

/// 64 pages of which four fall into each set, so that all are held.
fn held_pages() -> Vec<u8> {
    let address = |page: u64| (page << 12) | (page * 61 % 4096);
    (0..64)
        .flat_map(|page| address(page).to_le_bytes())
        .collect()
}

/// 64 pages of four sets, so that each falls out before it is asked for again.
fn lost_pages() -> Vec<u8> {
    let address = |page: u64| (page << 21) | ((page % 4) << 12) | (page * 61 % 4096);
    (0..64)
        .flat_map(|page| address(page).to_le_bytes())
        .collect()
}

/// 64 pages that the last table lacks, so that each walk is refused and drops.
fn missing_pages() -> Vec<u8> {
    let address = |page: u64| ((page + 64) << 12) | (page * 61 % 4096);
    (0..64)
        .flat_map(|page| address(page).to_le_bytes())
        .collect()
}

/// Prints a line: the name, both best times and their ratio.
fn print(name: &str, [first, second]: [f64; 2]) {
    let ratio = first / second;
    println!("{name:20} {first:9.2} {second:9.2} {ratio:6.2}");
}

/// Prints nanoseconds of both walks and their ratio, for each kind.
fn walks() {
    let mut random = Random::new(3);
    let walks: [HostWalk; 2] = black_box([aalbrett_walk, fast_walk]);
    for kind in &KINDS {
        let mut memory = memory();
        let questions = questions(&mut random, kind);
        let mut best = [f64::MAX; 2];
        for walk in walks {
            check(walk, kind, &questions, &mut memory);
        }
        for _ in 0..ROUNDS {
            for (walk, best) in walks.iter().zip(&mut best) {
                *best = best.min(time(*walk, &questions, &mut memory));
            }
        }
        print(kind.name, best);
    }
}

/// Prints nanoseconds of both loops of one kind of translation and their ratio.
fn translations(name: &str, asked: (u64, u64), addresses: &[u8]) {
    let loops: [Translations; 2] = black_box([timing_translations, fast_translations]);
    let sums = loops.map(|turn| {
        let mut memory = memory();
        let sum = fast_cache::call(turn, &SETTINGS, asked, 100, addresses, &mut memory);
        (sum, memory)
    });
    assert_eq!(sums[0], sums[1], "{name}");
    let mut memory = memory();
    let mut best = [f64::MAX; 2];
    for _ in 0..ROUNDS {
        for (turn, best) in loops.iter().zip(&mut best) {
            let start = Instant::now();
            black_box(fast_cache::call(
                *turn,
                &SETTINGS,
                asked,
                TURNS,
                addresses,
                &mut memory,
            ));
            *best = best.min(start.elapsed().as_nanos() as f64 / TURNS as f64);
        }
    }
    print(name, best);
}

/// The cards that ask for each address of a list in one way.
fn cards((access, mode): (u64, u64), addresses: &[u8]) -> Vec<[u8; CARD]> {
    let card = |address: &[u8]| {
        let mut bytes = [0; CARD];
        let card = Card::Translate {
            address: u64::from_le_bytes(address.try_into().unwrap_or_default()),
            access: access as u8,
            mode: mode as u8,
        };
        card.write(&mut bytes);
        bytes
    };
    addresses.chunks_exact(8).map(card).collect()
}

/// Prints nanoseconds of a step in place of both machines and their ratio, for one kind of card.
fn steps(name: &str, asked: (u64, u64), addresses: &[u8]) {
    let cards = cards(asked, addresses);
    let mut memory = memory();
    let mut record = raw::Machine::default();
    raw::start(&mut record, &raw_settings(&SETTINGS));
    let mut plain = FastMachine::start(SETTINGS);
    let (mut ours, mut theirs) = ([0; Answer::BYTES], [0; Answer::BYTES]);
    for card in &cards {
        let number = raw::step(&mut record, &mut memory, card, &mut ours);
        assert_eq!(number, plain.step(&mut memory, card, &mut theirs), "{name}");
        assert_eq!(ours, theirs, "{name}");
    }
    let count = (STEPS * cards.len()) as f64;
    let mut best = [f64::MAX; 2];
    for _ in 0..ROUNDS {
        let start = Instant::now();
        for card in (0..STEPS).flat_map(|_| &cards) {
            black_box(raw::step(&mut record, &mut memory, card, &mut ours));
        }
        best[0] = best[0].min(start.elapsed().as_nanos() as f64 / count);
        let start = Instant::now();
        for card in (0..STEPS).flat_map(|_| &cards) {
            black_box(plain.step(&mut memory, card, &mut theirs));
        }
        best[1] = best[1].min(start.elapsed().as_nanos() as f64 / count);
    }
    print(name, best);
}

/// Prints nanoseconds and ratios of walks, of translations by value in a loop, and of steps in place.
fn main() {
    println!(
        "{:20} {:>9} {:>9} {:>6}",
        "ns", "aalbrett", "second", "ratio"
    );
    walks();
    translations("hit, read", (READ, USER), &held_pages());
    translations("hit, write", (WRITE, USER), &held_pages());
    translations("fill, read", (READ, USER), &lost_pages());
    translations("fill, write", (WRITE, USER), &lost_pages());
    translations("fault, read", (READ, USER), &missing_pages());
    steps("hit in place, read", (READ, USER), &held_pages());
    steps("hit in place, write", (WRITE, USER), &held_pages());
    steps("fill in place, read", (READ, USER), &lost_pages());
    steps("fault in place, read", (READ, USER), &missing_pages());
}
