//! Space numbers in a machine: what each call keeps and drops of them.

use crate::cache::{Cache, Place};
use crate::machine::Machine;
use crate::settings::Settings;
use crate::translate::{READ, SUPERVISOR};

/// A machine with space numbers on and that CR3, which holds these places.
fn machine(cr3: u64, places: &[Place]) -> Machine {
    let settings = Settings {
        cr0: 0x8001_0001,
        cr3,
        cr4: 0x2_00A0,
        efer: 0x900,
        width: 40,
    };
    let mut cache = Cache::empty();
    for place in places {
        cache.fill(*place);
    }
    Machine { settings, cache }
}

/// A piece of a 2 MiB page with the tag, of that number, G or not.
fn place(tag: u64, number: u16, global: u8) -> Place {
    Place {
        marked: 1,
        tag,
        frame: tag,
        size: 2,
        number,
        global,
        ..Place::default()
    }
}

/// Places of two numbers and G, three of one large page and one of another.
fn places() -> [Place; 4] {
    [
        place(0x600, 1, 0),
        place(0x601, 2, 0),
        place(0x602, 2, 1),
        place(0x803, 1, 0),
    ]
}

/// The tags that are held, in the order of their sets.
fn held(machine: &Machine) -> Vec<u64> {
    machine.cache.filled().map(|(_, place)| place.tag).collect()
}

/// A root load drops the number loaded without G, or nothing with bit 63; bit 63 is not stored.
#[test]
fn root_loads() {
    let mut one = machine(0x1001, &places());
    assert_eq!(one.load_root(0x6001).answer, 0);
    assert_eq!(held(&one), [0x601, 0x602]);
    let mut other = machine(0x1001, &places());
    assert_eq!(other.load_root(0x6002).answer, 0);
    assert_eq!(held(&other), [0x600, 0x602, 0x803]);
    let mut kept = machine(0x1001, &places());
    kept.cache.sets[9].places[1].frame = 5;
    assert_eq!(kept.load_root(1 << 63 | 0x6001).answer, 0);
    assert_eq!(kept.settings.cr3, 0x6001);
    assert_eq!(held(&kept), [0x600, 0x601, 0x602, 0x803]);
    assert_eq!(kept.cache.sets[9].places[1], Place::default());
    let before = kept.clone();
    assert_eq!(kept.load_root(1 << 62).answer, 8);
    assert_eq!(kept.load_root(3 << 62).answer, 8);
    assert_eq!(kept, before);
}

/// Without space numbers bit 63 is compared, and a root load drops all but G places.
#[test]
fn root_loads_without_numbers() {
    let mut off = machine(0x1001, &places());
    off.settings.cr4 = 0xA0;
    assert_eq!(off.load_root(1 << 63 | 0x1000).answer, 8);
    assert_eq!(off.load_root(0x1001).answer, 0);
    assert_eq!(held(&off), [0x602]);
}

/// A start or a held CR3 with bit 63 is 8, also with space numbers.
#[test]
fn bit_63_belongs_to_root_loads_alone() {
    let mut odd = machine(1 << 63 | 0x1000, &[]);
    assert_eq!(Machine::start(odd.settings).0.answer, 8);
    let given = odd.translate(0, READ, SUPERVISOR, &mut []);
    assert_eq!(given.answer, 8);
}

/// A page drop takes the present number's and G places, of every size.
#[test]
fn page_drops() {
    let mut one = machine(0x1001, &places());
    one.drop_page(0x7F_F000);
    assert_eq!(held(&one), [0x601, 0x803]);
    let mut off = machine(0x1001, &places());
    off.settings.cr4 = 0xA0;
    off.drop_page(0x7F_F000);
    assert_eq!(held(&off), [0x600, 0x601, 0x803]);
}

/// A fault drops the present number's and G places, and a fill leaves another number's.
#[test]
fn faults_and_fills() {
    let mut two = machine(0x1002, &places());
    let mut memory = vec![0; 0x5000];
    let fault = two.translate(0x60_5000, READ, SUPERVISOR, &mut memory);
    assert_eq!((fault.answer, held(&two)), (5, vec![0x600, 0x803]));
    for (at, entry) in [(0x1000, 0x2007u64), (0x2000, 0x3007), (0x3018, 0x80_0187)] {
        memory[at..at + 8].copy_from_slice(&entry.to_le_bytes());
    }
    two.settings.cr4 &= !Settings::PGE;
    let read = two.translate(0x60_0000, READ, SUPERVISOR, &mut memory);
    assert_eq!((read.answer, read.entries), (0, 3));
    let [first, second, ..] = two.cache.sets[0].places;
    assert_eq!((first.number, second.number), (2, 1));
    two.settings.cr4 |= Settings::PGE;
    two.settings.cr3 = 0x1003;
    let read = two.translate(0x60_0000, READ, SUPERVISOR, &mut memory);
    assert_eq!((read.answer, read.entries), (0, 3));
    let [first, second, ..] = two.cache.sets[0].places;
    assert_eq!((first.number, first.global), (3, 1));
    assert_eq!(second, Place::default());
}

/// The four kinds of INVPCID.
#[test]
fn invpcid_kinds() {
    let known: [(u64, u64, &[u64]); 6] = [
        (0, 1, &[0x601, 0x602, 0x803]),
        (0, 2, &[0x600, 0x602, 0x803]),
        (1, 1, &[0x601, 0x602]),
        (1, 7, &[0x600, 0x601, 0x602, 0x803]),
        (2, 0, &[]),
        (3, 0, &[0x602]),
    ];
    for (kind, number, left) in known {
        let mut machine = machine(0x1001, &places());
        assert_eq!(machine.invpcid(kind, number, 0x7F_FFFF).answer, 0);
        assert_eq!(held(&machine), left, "kind {kind}");
    }
}

/// INVPCID is refused in the order 1, 12, 3, and then changes nothing.
#[test]
fn invpcid_refusals() {
    let hole = 1 << 47;
    let refused = [
        (4, 4096, hole, 1),
        (u64::MAX, 0, 0, 1),
        (0, 4096, hole, 12),
        (1, 4096, 0, 12),
        (2, 4096, 0, 12),
        (3, 1 << 32, 0, 12),
        (0, 1, hole, 3),
    ];
    for (kind, number, address, known) in refused {
        let mut machine = machine(0x1001, &places());
        let before = machine.clone();
        let answer = machine.invpcid(kind, number, address);
        assert_eq!(answer.numbers(), [known, 0, 0, 0, 0]);
        assert_eq!(machine, before);
    }
}

/// Without space numbers kinds 0 and 1 want number 0; kinds 2 and 3 take any, and settings are not judged.
#[test]
fn invpcid_without_numbers() {
    for (kind, number, known) in [
        (0, 1, 12),
        (1, 4095, 12),
        (0, 0, 0),
        (1, 0, 0),
        (2, 4095, 0),
        (3, 1, 0),
    ] {
        let mut off = machine(0x1001, &places());
        off.settings.cr4 = 0;
        assert!(!off.settings.served());
        assert_eq!(off.invpcid(kind, number, 0).answer, known);
    }
}

/// Space numbers are turned on only while CR3 bits 11:0 are 0, and stay on afterwards.
#[test]
fn turning_on() {
    let on = machine(0x1000, &[]).settings;
    assert_eq!(Machine::start(on).0.answer, 0);
    let low = Settings { cr3: 0x1001, ..on };
    assert_eq!(Machine::start(low).0.answer, 11);
    let mut machine = machine(0x1001, &places());
    assert_eq!(
        machine
            .load_settings(0x8001_0001, 0x2_0020, 0x900, 40)
            .answer,
        0
    );
    assert_eq!(held(&machine), []);
    assert_eq!(machine.load_settings(0, 0x2_0020, 0x900, 40).answer, 11);
    assert_eq!(
        machine.load_settings(0x8001_0001, 0x20, 0x900, 40).answer,
        0
    );
    assert_eq!(
        machine
            .load_settings(0x8001_0001, 0x2_0020, 0x900, 40)
            .answer,
        11
    );
    assert_eq!(
        machine
            .load_settings(0x8001_0001, 0x12_0020, 0x900, 40)
            .answer,
        10
    );
}
