//! Comparison of a host's walk with this program's, byte by byte.

use crate::answer::Answer;
use crate::case::Case;
use crate::draw::{draw, FRESH};
use crate::host::{call, HostWalk, Question};
use crate::random::Random;
use crate::tally::{rows, Tally};

/// So many bytes on both sides of a lent run must stay as they are.
const GUARD: usize = 64;
/// Lengths of the answer buffer: short, exact and long ones.
const BUFFERS: [usize; 12] = [40, 40, 40, 40, 41, 48, 64, 96, 39, 32, 8, 0];

/// A run of bytes with guards around it, at any alignment.
#[derive(Clone, PartialEq)]
struct Run {
    bytes: Vec<u8>,
    start: usize,
    length: usize,
}

impl Run {
    /// A run with that content between guards of one random byte.
    fn new(random: &mut Random, content: &[u8]) -> Run {
        let start = GUARD + random.below(8) as usize;
        let length = content.len();
        let mut bytes = vec![random.word() as u8; start + length + GUARD];
        bytes[start..start + length].copy_from_slice(content);
        Run {
            bytes,
            start,
            length,
        }
    }

    /// The bytes that are lent.
    fn lent(&mut self) -> &mut [u8] {
        &mut self.bytes[self.start..self.start + self.length]
    }

    /// The first places that differ: offset, this byte and the other's.
    fn differences(&self, other: &Run) -> Vec<(i64, u8, u8)> {
        let pairs = self.bytes.iter().zip(&other.bytes).enumerate();
        let differing = pairs.filter(|(_, (one, other))| one != other);
        let shown = differing.map(|(at, pair)| (at as i64 - self.start as i64, *pair.0, *pair.1));
        shown.take(16).collect()
    }
}

/// What one side gives: the returned number, the memory and the answer buffer.
#[derive(Clone, PartialEq)]
struct Outcome {
    returned: u64,
    memory: Run,
    buffer: Run,
}

/// Compares so many walks and panics at the first difference; gives the rules met.
pub fn walks(seed: u64, count: u64, host: HostWalk) -> Tally {
    let mut random = Random::new(seed);
    let mut tally = Tally::of_walks();
    tally.expect([39, 40, 41].map(buffer_row));
    let mut content = Vec::new();
    for number in 1..=count {
        let case = draw(&mut random, FRESH);
        case.lay_out(&mut content);
        let length = random.pick(&BUFFERS);
        let before: Vec<u8> = (0..length).map(|_| random.word() as u8).collect();
        let mut ours = Outcome {
            returned: 0,
            memory: Run::new(&mut random, &content),
            buffer: Run::new(&mut random, &before),
        };
        let mut theirs = ours.clone();
        let answer = expected(&case, &mut ours);
        hosted(&case, host, &mut theirs);
        assert!(
            ours == theirs,
            "seed {seed:#x} walk {number} buffer of {length} bytes\n{case:x?}\n{}",
            difference(&ours, &theirs)
        );
        tally.count(&[buffer_row(length)]);
        if let Some(answer) = answer {
            tally.count(&rows(&case, &content, &answer));
        }
    }
    tally
}

/// The row of an answer buffer's length.
fn buffer_row(length: usize) -> String {
    match length {
        0..=38 => "answer buffer below 39 bytes".into(),
        39 | 40 => format!("answer buffer of {length} bytes"),
        _ => "answer buffer above 40 bytes".into(),
    }
}

/// Makes the outcome into what the paper gives; the answer where the buffer is not short.
fn expected(case: &Case, outcome: &mut Outcome) -> Option<Answer> {
    outcome.returned = Answer::SHORT_BUFFER;
    let first = outcome.buffer.lent().get_mut(..Answer::BYTES)?;
    let answer = case.translate(outcome.memory.lent());
    first.copy_from_slice(&answer.bytes());
    outcome.returned = answer.answer;
    Some(answer)
}

/// Makes the outcome into what the host's walk gives.
fn hosted(case: &Case, host: HostWalk, outcome: &mut Outcome) {
    let question = Question {
        address: case.address,
        access: case.access,
        mode: case.mode,
    };
    let (memory, buffer) = (outcome.memory.lent(), outcome.buffer.lent());
    outcome.returned = call(host, &case.settings, &question, memory, buffer);
}

/// Both answers and the places where their bytes differ.
fn difference(ours: &Outcome, theirs: &Outcome) -> String {
    let numbers = |outcome: &Outcome| {
        let lent = &outcome.buffer.bytes[outcome.buffer.start..];
        let words = lent[..outcome.buffer.length].chunks_exact(8).take(5);
        let number = |word: &[u8]| word.iter().rev().fold(0, |n, b| n << 8 | u64::from(*b));
        words.map(number).collect::<Vec<u64>>()
    };
    format!(
        "ours returned {} with {:x?}\ntheirs returned {} with {:x?}\n\
         memory (offset, ours, theirs): {:x?}\nbuffer (offset, ours, theirs): {:x?}",
        ours.returned,
        numbers(ours),
        theirs.returned,
        numbers(theirs),
        ours.memory.differences(&theirs.memory),
        ours.buffer.differences(&theirs.buffer),
    )
}
