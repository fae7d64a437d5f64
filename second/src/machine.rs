//! The machine: settings and cache, and the calls that change them.

use crate::answer::Answer;
use crate::cache::{Cache, Place, LAST_NUMBER};
use crate::settings::Settings;
use crate::translate::{canonical, refusal, unpaged, walked, Rights, WRITE};
use crate::walk::{Walk, DIRTY, GLOBAL};

/// Settings and remembered translations.
#[derive(Clone, Debug, PartialEq, Eq)]
pub struct Machine {
    pub settings: Settings,
    pub cache: Cache,
}

impl Machine {
    /// A machine with these settings and an empty cache; refused, with registers 0 and M = 40.
    pub fn start(settings: Settings) -> (Answer, Machine) {
        let (answer, settings) = match settings.load_refusal(false) {
            None => (Answer::DONE, settings),
            Some(refusal) => (refusal, Settings::initial()),
        };
        let cache = Cache::empty();
        (Answer::bare(answer), Machine { settings, cache })
    }

    /// The translation: refusal, hit, or a walk that fills or drops.
    pub fn translate(&mut self, address: u64, access: u64, mode: u64, memory: &mut [u8]) -> Answer {
        if let Some(answer) = refusal(&self.settings, address, access, mode) {
            return answer;
        }
        if !self.settings.paging() {
            return unpaged(address);
        }
        let (tag, number) = (address >> 12, self.settings.number());
        let needed = Rights::needed(&self.settings, access, mode);
        if let Some(place) = self.cache.hit(tag, number, needed, access == WRITE) {
            return Answer {
                answer: Answer::DONE,
                value: place.frame << 12 | address & 0xFFF,
                detail: place.size.into(),
                entries: 0,
                memory_type: place.memory_type.into(),
            };
        }
        let (answer, walk) = walked(&self.settings, address, access, mode, memory);
        if answer.answer == Answer::DONE {
            let place = self.place(tag, access == WRITE, &answer, &walk);
            self.cache.fill(place);
        } else {
            self.cache.drop_page(address, number);
        }
        answer
    }

    /// The place that a successful walk fills.
    fn place(&self, tag: u64, write: bool, answer: &Answer, walk: &Walk) -> Place {
        let rights = Rights::combined(&walk.steps);
        let last = walk.steps[walk.steps.len() - 1].entry;
        Place {
            marked: 1,
            tag,
            frame: answer.value >> 12,
            size: answer.detail as u8,
            write: rights.write.into(),
            user: rights.user.into(),
            fetch: rights.fetch.into(),
            dirty: (write || last & DIRTY != 0).into(),
            global: (self.settings.global_pages() && last & GLOBAL != 0).into(),
            spare: 0,
            memory_type: answer.memory_type as u8,
            number: self.settings.number() as u16,
        }
    }

    /// Loads CR3, if the settings are then served, and drops what the value says.
    ///
    /// Without space numbers all but G places go. With them those of the number loaded go, or none where
    /// bit 63 is set, which is no part of CR3.
    pub fn load_root(&mut self, value: u64) -> Answer {
        let settings = self.settings.with_root(value);
        if let Some(refusal) = settings.refusal() {
            return Answer::bare(refusal);
        }
        self.settings = settings;
        let number = settings.number();
        match (settings.space_numbers(), value >> 63) {
            (false, _) => self.cache.drop(|place| place.global == 0),
            (true, 0) => self.cache.drop(|place| place.only_of(number)),
            (true, _) => self.cache.drop(|_| false),
        }
        Answer::bare(Answer::DONE)
    }

    /// Loads all settings but CR3 and drops everything, if they are then served.
    pub fn load_settings(&mut self, cr0: u64, cr4: u64, efer: u64, width: u64) -> Answer {
        let settings = Settings {
            cr0,
            cr4,
            efer,
            width,
            ..self.settings
        };
        if let Some(refusal) = settings.load_refusal(self.settings.space_numbers()) {
            return Answer::bare(refusal);
        }
        self.settings = settings;
        self.drop_all()
    }

    /// Drops each place under the present number whose page contains the address; a non-canonical one changes nothing.
    pub fn drop_page(&mut self, address: u64) -> Answer {
        if canonical(address) {
            self.cache.drop_page(address, self.settings.number());
        }
        Answer::bare(Answer::DONE)
    }

    /// Drops everything.
    pub fn drop_all(&mut self) -> Answer {
        self.cache = Cache::empty();
        Answer::bare(Answer::DONE)
    }

    /// INVPCID: drops one address in one number, one number, everything, or all but G places.
    pub fn invpcid(&mut self, kind: u64, number: u64, address: u64) -> Answer {
        if let Some(refusal) = self.invpcid_refusal(kind, number, address) {
            return Answer::bare(refusal);
        }
        match kind {
            0 => self
                .cache
                .drop(|place| place.covers(address) && place.only_of(number)),
            1 => self.cache.drop(|place| place.only_of(number)),
            2 => self.cache = Cache::empty(),
            _ => self.cache.drop(|place| place.global == 0),
        }
        Answer::bare(Answer::DONE)
    }

    /// The number that refuses an INVPCID, if one does; settings are not judged.
    fn invpcid_refusal(&self, kind: u64, number: u64, address: u64) -> Option<u64> {
        let foreign = number != 0 && !self.settings.space_numbers();
        if kind > 3 {
            Some(Answer::UNKNOWN)
        } else if number > LAST_NUMBER || (kind < 2 && foreign) {
            Some(Answer::SPACE_NUMBER)
        } else {
            (kind == 0 && !canonical(address)).then_some(Answer::FORM)
        }
    }
}

#[cfg(test)]
mod tests {
    use super::Machine;
    use crate::settings::Settings;

    /// A refused start gives its number and the initial settings, and refused loads leave all.
    #[test]
    fn refused_starts_and_loads() {
        let narrow = Settings {
            width: 31,
            ..Settings::initial()
        };
        let (answer, mut machine) = Machine::start(narrow);
        assert_eq!(answer.line(1), "1 2 0000000000000000 0 0 0");
        assert_eq!(machine.settings, Settings::initial());
        let before = machine.clone();
        assert_eq!(machine.load_root(1 << 40).answer, 8);
        assert_eq!(machine.load_settings(1 << 31, 0, 0, 40).answer, 9);
        assert_eq!(machine.load_settings(1 << 31, 0, 0, 31).answer, 2);
        let extended = machine.load_settings(0x8000_0001, 0x1020, 0x100, 40);
        assert_eq!(extended.line(1), "1 10 0000000000000000 0 0 0");
        assert_eq!(machine, before);
        assert_eq!(machine.load_root((1 << 40) - 1).answer, 0);
        assert_eq!(machine.load_settings(0, 0, 0, 39).answer, 8);
        assert_eq!(machine.load_settings(0, 0, 0, 41).answer, 0);
    }

    /// Starts and loads answer the first wrong setting: width, root, paging, extension.
    #[test]
    fn the_first_wrong_setting_is_told() {
        let all = Settings {
            cr0: 1 << 31,
            cr3: 1 << 53,
            cr4: 1 << 20,
            efer: 0,
            width: 53,
        };
        let width = Settings { width: 52, ..all };
        let root = Settings { cr3: 0, ..width };
        let paging = Settings {
            cr0: 0x8000_0001,
            cr4: 1 << 20 | 0x20,
            efer: 0x100,
            ..root
        };
        for (settings, number) in [(all, 2), (width, 8), (root, 9), (paging, 10)] {
            assert_eq!(Machine::start(settings).0.answer, number);
            let (_, mut machine) = Machine::start(Settings::initial());
            machine.settings = settings;
            assert_eq!(machine.load_root(settings.cr3).answer, number);
            let Settings {
                cr0,
                cr4,
                efer,
                width,
                ..
            } = settings;
            let loaded = machine.load_settings(cr0, cr4, efer, width);
            assert_eq!(loaded.answer, number);
            assert_eq!(machine.settings, settings);
        }
    }
}
