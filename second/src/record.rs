//! This program's machine as the record that a host lends, and back.

use aalbrett_raw as raw;

use crate::cache::{Cache, Place, Set};
use crate::machine::Machine;
use crate::settings::Settings;

/// The weight of the bits of a place's flags that count for nothing.
const SPARE: u8 = 64;

/// The record of a machine.
pub fn record(machine: &Machine) -> raw::Machine {
    raw::Machine {
        settings: raw_settings(&machine.settings),
        sets: machine.cache.sets.map(|set| set.places.map(raw_place)),
    }
}

/// The machine of a record.
pub fn machine(record: &raw::Machine) -> Machine {
    let raw::Settings {
        cr0,
        cr3,
        cr4,
        efer,
        width,
    } = record.settings;
    Machine {
        settings: Settings {
            cr0,
            cr3,
            cr4,
            efer,
            width,
        },
        cache: Cache {
            sets: record.sets.map(|places| Set {
                places: places.map(place),
            }),
        },
    }
}

/// The settings of a record.
pub fn raw_settings(settings: &Settings) -> raw::Settings {
    raw::Settings {
        cr0: settings.cr0,
        cr3: settings.cr3,
        cr4: settings.cr4,
        efer: settings.efer,
        width: settings.width,
    }
}

/// The place of a record.
fn raw_place(place: Place) -> raw::Place {
    raw::Place {
        tag: place.tag,
        frame: place.frame,
        size: place.size,
        flags: place.write * raw::Place::WRITE
            + place.user * raw::Place::USER
            + place.fetch * raw::Place::FETCH
            + place.dirty * raw::Place::DIRTY
            + place.global * raw::Place::GLOBAL
            + place.marked * raw::Place::MARKED
            + place.spare * SPARE,
        memory_type: place.memory_type,
        number: place.number,
    }
}

/// The place out of a record.
fn place(place: raw::Place) -> Place {
    let flag = |bit| u8::from(place.flags & bit != 0);
    Place {
        marked: flag(raw::Place::MARKED),
        tag: place.tag,
        frame: place.frame,
        size: place.size,
        write: flag(raw::Place::WRITE),
        user: flag(raw::Place::USER),
        fetch: flag(raw::Place::FETCH),
        dirty: flag(raw::Place::DIRTY),
        global: flag(raw::Place::GLOBAL),
        spare: place.flags / SPARE,
        memory_type: place.memory_type,
        number: place.number,
    }
}
