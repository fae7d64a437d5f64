//! Comparison of INVPCID with this program's, on handmade machines: the number, the whole record and the answer buffer.

use aalbrett_raw as raw;

use crate::answer::Answer;
use crate::draw_invpcid::invpcid;
use crate::draw_machine::Bench;
use crate::invpcid_tally::{rows, tally};
use crate::machine::Machine;
use crate::random::Random;
use crate::record::record;
use crate::tally::Tally;

/// So many calls are made of each machine.
const CALLS: u64 = 6;
/// Lengths of the answer buffer: exact, long and short ones.
const BUFFERS: [usize; 10] = [40, 40, 40, 40, 40, 40, 41, 64, 39, 0];

/// Makes calls of so many machines and panics at the first difference; gives the rules met.
///
/// Their call takes a record, kind, number and address, and an answer buffer.
pub fn invpcids(
    seed: u64,
    count: u64,
    mut their_call: impl FnMut(&mut raw::Machine, [u64; 3], &mut [u8]) -> u64,
) -> Tally {
    let mut random = Random::new(seed);
    let mut tally = tally();
    for machine in 1..=count {
        let bench = Bench::draw(&mut random);
        for _ in 0..CALLS {
            let asked = invpcid(&mut random, &bench);
            let before = vec![random.word() as u8; random.pick(&BUFFERS)];
            let (mut ours, mut buffer) = (bench.machine.clone(), before.clone());
            let number = buffered(&mut ours, asked, &mut buffer);
            let (mut theirs, mut their_buffer) = (record(&bench.machine), before);
            let their_number = their_call(&mut theirs, asked, &mut their_buffer);
            let same = record(&ours) == theirs;
            assert!(
                (number, &buffer) == (their_number, &their_buffer) && same,
                "seed {seed:#x} machine {machine}: {asked:x?} with {:x?}\n\
                 ours:   {number} {buffer:02x?}\ntheirs: {their_number} {their_buffer:02x?}\n\
                 records the same: {same}",
                bench.machine.settings,
            );
            tally.count(&rows(&bench.machine, asked, number));
        }
    }
    tally
}

/// The number of one INVPCID into an answer buffer; a short one gives 7 and no call.
pub fn buffered(machine: &mut Machine, asked: [u64; 3], buffer: &mut [u8]) -> u64 {
    let Some(first) = buffer.get_mut(..Answer::BYTES) else {
        return Answer::SHORT_BUFFER;
    };
    let [kind, number, address] = asked;
    let answer = machine.invpcid(kind, number, address);
    first.copy_from_slice(&answer.bytes());
    answer.answer
}

#[cfg(test)]
mod tests {
    use aalbrett_raw as raw;

    use super::{buffered, invpcids};
    use crate::record::{machine, record};

    /// This program's INVPCID on a record.
    fn call(lent: &mut raw::Machine, asked: [u64; 3], buffer: &mut [u8]) -> u64 {
        let mut own = machine(lent);
        let number = buffered(&mut own, asked, buffer);
        *lent = record(&own);
        number
    }

    /// This program agrees with itself, and the draws meet every rule.
    #[test]
    fn this_program_agrees_with_itself() {
        let tally = invpcids(5, 5_000, call);
        assert_eq!(tally.fewer(1), Vec::<&str>::new(), "{}", tally.table());
    }

    /// The comparison finds a place that was left.
    #[test]
    #[should_panic(expected = "records the same: false")]
    fn a_place_left_is_found() {
        invpcids(5, 50, |lent, asked, buffer| {
            let before = lent.sets;
            let number = call(lent, asked, buffer);
            lent.sets[5] = before[5];
            number
        });
    }
}
