//! A machine that remembers, owned by the host.

use aalbrett_raw as raw;

use crate::answer::{answered, BUFFER};
use crate::{Answer, Settings};

/// A machine: its record may be read and written between steps, and hold anything.
#[derive(Clone, Copy, Debug, PartialEq, Eq)]
pub struct Machine {
    pub record: raw::Machine,
}

impl Machine {
    /// A machine with these settings that remembers nothing, and its answer: done, or refused with the
    /// number of the setting that is wrong and a machine with all registers 0 and M = 40.
    pub fn start(settings: Settings) -> (Answer, Machine) {
        let mut record = raw::Machine::default();
        let number = raw::start(&mut record, &settings);
        (answered(number, &[0; BUFFER]), Machine { record })
    }

    /// One card's step on the machine and guest memory, whose first byte is physical address 0.
    pub fn step(&mut self, memory: &mut [u8], card: &[u8]) -> Answer {
        let mut buffer = [0; BUFFER];
        let number = raw::step(&mut self.record, memory, card, &mut buffer);
        answered(number, &buffer)
    }

    /// INVPCID: drops by its kind, by a space number and by an address, or is refused.
    pub fn invpcid(&mut self, kind: u64, number: u64, address: u64) -> Answer {
        let mut buffer = [0; BUFFER];
        let asked = [kind, number, address];
        let number = raw::invpcid(&mut self.record, asked, &mut buffer);
        answered(number, &buffer)
    }
}

#[cfg(test)]
mod tests {
    use super::Machine;
    use crate::{Answer, Card, Place, Question, Settings, CARD_SHORT, USER, WRITE};
    use crate::{EXTENSION, FORM, PAGING, ROOT, SPACES, SPACE_NUMBER, UNKNOWN, WIDTH};
    use crate::{INVPCID_ADDRESS, INVPCID_ALL, INVPCID_LOCAL, INVPCID_NUMBER};

    /// Paging on, PGE and space numbers on, 40 physical bits.
    const SETTINGS: Settings = Settings {
        cr0: 0x8001_0001,
        cr3: 0x1000,
        cr4: 0x2_00A0,
        efer: 0x900,
        width: 40,
    };

    /// Done, where no translation was asked.
    const DONE: Answer = Answer::Done {
        address: 0,
        size: 0,
        reads: 0,
        memory_type: 0,
    };

    /// The archive reads and writes each field where the layout has it.
    #[test]
    fn the_archive_has_the_same_fields() {
        let (answer, mut machine) = Machine::start(SETTINGS);
        assert_eq!(answer, DONE);
        assert_eq!(machine.record.settings, SETTINGS);
        let mut memory = vec![0; 0x5000];
        let root = Card::load_root(0x1ABC);
        assert_eq!(machine.step(&mut memory, &root.0), DONE);
        let entries = [
            (0x1000, 0x2007),
            (0x2000, 0x3007),
            (0x3010, 0x4007),
            (0x4018, 0x8000_0000_0BCD_E18D),
        ];
        for (at, entry) in entries {
            assert_eq!(machine.step(&mut memory, &Card::store(at, entry).0), DONE);
        }
        let read = Question {
            address: 0x40_3ABC,
            access: 0,
            mode: USER,
        };
        let answer = machine.step(&mut memory, &Card::translate(read).0);
        let found = |reads| Answer::Done {
            address: 0xBCD_EABC,
            size: 1,
            reads,
            memory_type: 5,
        };
        assert_eq!(answer, found(4));
        let place = Place {
            tag: 0x403,
            frame: 0xBCDE,
            size: 1,
            flags: Place::USER | Place::GLOBAL | Place::MARKED,
            memory_type: 5,
            number: 0xABC,
        };
        assert_eq!(machine.record.sets[3][0], place);
        let again = machine.step(&mut memory, &Card::translate(read).0);
        assert_eq!(again, found(0));
        machine.record.sets[3][0].frame = 0x77;
        let changed = machine.step(&mut memory, &Card::translate(read).0);
        assert!(matches!(
            changed,
            Answer::Done {
                address: 0x7_7ABC,
                ..
            }
        ));
        let write = Question {
            access: WRITE,
            ..read
        };
        let fault = machine.step(&mut memory, &Card::translate(write).0);
        assert!(matches!(fault, Answer::Fault { code: 7, .. }));
        assert_eq!(machine.record.sets[3][0], Place::default());
    }

    /// A refused start, a short card, and every other kind of card.
    #[test]
    fn the_other_calls_are_answered() {
        let narrow = Settings {
            width: 31,
            ..SETTINGS
        };
        let (answer, mut machine) = Machine::start(narrow);
        assert_eq!(answer, Answer::Refused(WIDTH));
        assert_eq!(
            (machine.record.settings.cr3, machine.record.settings.width),
            (0, 40)
        );
        let mut memory = vec![0; 64];
        let short = machine.step(&mut memory, &[4; 31]);
        assert_eq!(short, Answer::Refused(CARD_SHORT));
        let outside = machine.step(&mut memory, &Card::store(57, 1).0);
        let known = Answer::Outside {
            entry: 57,
            level: 0,
            reads: 0,
        };
        assert_eq!(outside, known);
        for card in [
            Card::load_settings(SETTINGS),
            Card::load_root(0x2000),
            Card::drop_page(5),
            Card::drop_all(),
        ] {
            assert_eq!(machine.step(&mut memory, &card.0), DONE);
        }
        let loaded = Settings {
            cr3: 0x2000,
            ..SETTINGS
        };
        assert_eq!(machine.record.settings, loaded);
    }

    /// Starts and both loads tell which setting is wrong, and loads leave all as it was.
    #[test]
    fn the_wrong_setting_is_told() {
        let narrow = Settings {
            width: 31,
            ..SETTINGS
        };
        let root = Settings {
            cr3: 1 << 40,
            ..SETTINGS
        };
        let paging = Settings {
            efer: 0,
            ..SETTINGS
        };
        let extension = Settings {
            cr4: 0x10_0020,
            ..SETTINGS
        };
        let spaces = Settings { cr0: 0, ..SETTINGS };
        let cases = [
            (narrow, WIDTH),
            (root, ROOT),
            (paging, PAGING),
            (extension, EXTENSION),
            (spaces, SPACES),
        ];
        for (settings, number) in cases {
            let refused = Answer::Refused(number);
            let (answer, mut machine) = Machine::start(settings);
            assert_eq!(answer, refused);
            machine.record.settings = settings;
            let before = machine;
            for card in [Card::load_root(settings.cr3), Card::load_settings(settings)] {
                assert_eq!(machine.step(&mut [], &card.0), refused);
                assert_eq!(machine, before);
            }
        }
    }
    /// INVPCID of every kind drops what it names, and its refusals leave the machine.
    #[test]
    fn invpcid_is_answered() {
        let (_, mut machine) = Machine::start(SETTINGS);
        let places = [(0x600, 1, 0), (0x601, 2, 0), (0x602, 2, Place::GLOBAL)];
        for (tag, number, flags) in places {
            machine.record.sets[tag as usize % 16][0] = Place {
                tag,
                size: 2,
                flags: Place::MARKED | flags,
                number,
                ..Place::default()
            };
        }
        let marked = |place: Place| u8::from(place.flags & Place::MARKED != 0);
        let held = |machine: &Machine| [0, 1, 2].map(|set| marked(machine.record.sets[set][0]));
        let known = [
            (INVPCID_ADDRESS, 1, [0, 1, 1]),
            (INVPCID_NUMBER, 2, [1, 0, 1]),
            (INVPCID_LOCAL, 0, [0, 0, 1]),
            (INVPCID_ALL, 0, [0, 0, 0]),
        ];
        for (kind, number, left) in known {
            let mut machine = machine;
            assert_eq!(machine.invpcid(kind, number, 0x7F_FFFF), DONE);
            assert_eq!(held(&machine), left, "kind {kind}");
        }
        let before = machine;
        for (kind, number, refusal) in [(4, 4096, UNKNOWN), (0, 4096, SPACE_NUMBER), (0, 1, FORM)] {
            let answer = machine.invpcid(kind, number, 1 << 47);
            assert_eq!(answer, Answer::Refused(refusal));
            assert_eq!(machine, before);
        }
    }
}
