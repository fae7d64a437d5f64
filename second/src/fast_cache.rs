//! Remembered translations once more, written for speed: a cache that is changed in place.

use crate::answer::Answer;
use crate::cache::{set_of, Place};
use crate::card::Card;
use crate::fast::Descent;
use crate::host;
use crate::settings::Settings;
use crate::translate::{refusal, unpaged, Rights, WRITE};
use crate::walk;

/// A loop of translations on one machine, as the host sees it: a list of 64 addresses, taken over again.
pub type Translations = unsafe extern "C" fn(
    cr0: u64,
    cr3: u64,
    cr4: u64,
    efer: u64,
    width: u64,
    access: u64,
    mode: u64,
    turns: u64,
    addresses: *const u8,
    addresses_length: usize,
    memory: *mut u8,
    memory_length: usize,
) -> u64;

/// The sum of the values of a loop on lent bytes, under settings and a way to ask.
pub fn call(
    translations: Translations,
    settings: &Settings,
    (access, mode): (u64, u64),
    turns: u64,
    addresses: &[u8],
    memory: &mut [u8],
) -> u64 {
    // SAFETY: both runs of bytes are lent for the call with their own lengths.
    unsafe {
        translations(
            settings.cr0,
            settings.cr3,
            settings.cr4,
            settings.efer,
            settings.width,
            access,
            mode,
            turns,
            addresses.as_ptr(),
            addresses.len(),
            memory.as_mut_ptr(),
            memory.len(),
        )
    }
}

/// The sum of the values of that many translations from an empty cache.
///
/// # Safety
/// Both pointers must be good for so many bytes, and the two runs apart.
#[inline(never)]
pub unsafe extern "C" fn fast_translations(
    cr0: u64,
    cr3: u64,
    cr4: u64,
    efer: u64,
    width: u64,
    access: u64,
    mode: u64,
    turns: u64,
    addresses: *const u8,
    addresses_length: usize,
    memory: *mut u8,
    memory_length: usize,
) -> u64 {
    // SAFETY: the caller lends both runs for the call.
    let (addresses, memory) = unsafe {
        (
            host::lent(addresses.cast_mut(), addresses_length),
            host::lent(memory, memory_length),
        )
    };
    let settings = Settings {
        cr0,
        cr3,
        cr4,
        efer,
        width,
    };
    let mut cache = FastCache::empty();
    let mut sum = 0;
    for turn in 0..turns {
        let at = turn % 64 * 8;
        let address = walk::read_entry(addresses, at).unwrap_or(0);
        sum ^= cache
            .translate(&settings, address, access, mode, memory)
            .value;
    }
    sum
}

/// 16 sets of four places, the latest fill of a set first.
struct FastCache {
    sets: [[Place; 4]; 16],
}

impl FastCache {
    /// The cache that holds nothing.
    fn empty() -> FastCache {
        FastCache {
            sets: [[Place::default(); 4]; 16],
        }
    }

    /// The translation: refusal, hit, or a walk that fills or drops.
    #[inline(always)]
    fn translate(
        &mut self,
        settings: &Settings,
        address: u64,
        access: u64,
        mode: u64,
        memory: &mut [u8],
    ) -> Answer {
        if let Some(answer) = refusal(settings, address, access, mode) {
            return answer;
        }
        if !settings.paging() {
            return unpaged(address);
        }
        let (tag, number) = (address >> 12, settings.number());
        let set = &mut self.sets[set_of(tag) as usize];
        let needed = Rights::needed(settings, access, mode);
        if let Some(place) = hit(set, (tag, number), needed, access == WRITE) {
            return Answer {
                answer: Answer::DONE,
                value: place.frame << 12 | address & 0xFFF,
                detail: place.size.into(),
                entries: 0,
                memory_type: place.memory_type.into(),
            };
        }
        let mut descent = Descent::new(settings, address, access, mode);
        let answer = descent.run(settings.root(), memory);
        if answer.answer == Answer::DONE {
            let last = descent.entry(answer.detail);
            let new = Place {
                marked: 1,
                tag,
                frame: answer.value >> 12,
                size: answer.detail as u8,
                write: descent.grants(walk::WRITABLE).into(),
                user: descent.grants(walk::USER).into(),
                fetch: descent.grants(walk::EXECUTE_DISABLE).into(),
                dirty: (access == WRITE || last & walk::DIRTY != 0).into(),
                global: (settings.global_pages() && last & walk::GLOBAL != 0).into(),
                spare: 0,
                memory_type: answer.memory_type as u8,
                number: number as u16,
            };
            fill(set, new);
        } else {
            self.drop_page(address, number);
        }
        answer
    }

    /// Drops each place under the number whose page contains the address, gaps closed.
    fn drop_page(&mut self, address: u64, number: u64) {
        for (set_number, set) in (0..).zip(&mut self.sets) {
            let mut room = 0;
            for at in 0..4 {
                let place = set[at];
                if place.filled(set_number) && !place.taken(address, number) {
                    set[room] = place;
                    room += 1;
                }
            }
            set[room..].fill(Place::default());
        }
    }
}

/// A machine that is stepped in place: settings and cache.
pub struct FastMachine {
    settings: Settings,
    cache: FastCache,
}

impl FastMachine {
    /// The machine with these settings that holds nothing.
    pub fn start(settings: Settings) -> FastMachine {
        FastMachine {
            settings,
            cache: FastCache::empty(),
        }
    }

    /// The step of a card that translates: gives the answer's number, and writes its five to the buffer.
    #[inline(never)]
    pub fn step(&mut self, memory: &mut [u8], card: &[u8], buffer: &mut [u8]) -> u64 {
        if buffer.len() < Answer::BYTES {
            return Answer::SHORT_BUFFER;
        }
        let Some(Card::Translate {
            address,
            access,
            mode,
        }) = Card::read(card)
        else {
            return Answer::UNKNOWN;
        };
        let settings = &self.settings;
        let (access, mode) = (access.into(), mode.into());
        let given = self
            .cache
            .translate(settings, address, access, mode, memory);
        buffer[..Answer::BYTES].copy_from_slice(&given.bytes());
        given.answer
    }
}

/// The first filled place with the tag under the number that allows the access, and has D for a write.
#[inline(always)]
fn hit(set: &[Place; 4], (tag, number): (u64, u64), needed: Rights, write: bool) -> Option<&Place> {
    let counts = |place: &Place| place.tag == tag && place.counts_under(number);
    set.iter()
        .find(|place| counts(place) && place.filled(set_of(tag)) && place.serves(needed, write))
}

/// Puts the new place first, without those it takes the room of, gaps closed; mostly there is none to close.
#[inline(always)]
fn fill(set: &mut [Place; 4], new: Place) {
    let own = set_of(new.tag);
    let stays = |place: &Place| place.filled(own) && place.stays_beside(&new);
    if set[..3].iter().all(stays) {
        set.copy_within(..3, 1);
        set[0] = new;
        return;
    }
    let mut carried = new;
    let mut room = 0;
    for at in 0..4 {
        let place = set[at];
        if stays(&place) {
            set[room] = carried;
            carried = place;
            room += 1;
        }
    }
    if room < 4 {
        set[room] = carried;
        set[room + 1..].fill(Place::default());
    }
}

#[cfg(test)]
mod tests {
    use super::{call, fast_translations};
    use crate::cache::Cache;
    use crate::draw::{draw, FRESH};
    use crate::machine::Machine;
    use crate::random::Random;

    /// The fast cache and the plain machine agree on values and memory.
    #[test]
    fn fast_and_plain_agree() {
        let mut random = Random::new(4);
        for _ in 0..2_000 {
            let case = draw(&mut random, FRESH);
            let addresses: Vec<u64> = (0..64)
                .map(|_| case.address ^ random.below(3) << 12 ^ random.below(8) << 16)
                .collect();
            let bytes: Vec<u8> = addresses.iter().flat_map(|a| a.to_le_bytes()).collect();
            let mut machine = Machine {
                settings: case.settings,
                cache: Cache::empty(),
            };
            let (mut ours, mut theirs) = (case.memory(), case.memory());
            let mut sum = 0;
            for turn in 0..130 {
                let address = addresses[turn % 64];
                let answer = machine.translate(address, case.access, case.mode, &mut ours);
                sum ^= answer.value;
            }
            let asked = (case.access, case.mode);
            let fast = fast_translations;
            let found = call(fast, &case.settings, asked, 130, &bytes, &mut theirs);
            assert_eq!((sum, ours), (found, theirs), "{case:x?}");
        }
    }
}
