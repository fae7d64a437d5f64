//! How often settings were refused or served at each rule and border, by who judges them.

use crate::answer::Answer;
use crate::settings::Settings;

/// Rows of judged settings; bits that are wrong alone have rows of their own.
const ROWS: [&str; 21] = [
    "2 at PG = 0",
    "2 at PG = 1",
    "2 at M = 31",
    "2 at M = 53",
    "2 at M above 63",
    "2 before 8",
    "8 at PG = 0",
    "8 at PG = 1",
    "8 at M = 32",
    "8 at M = 52",
    "8 at CR3 = 2^M",
    "8 before 9",
    "8 before 11",
    "9 before 10",
    "11 at PG = 0",
    "served at M = 32",
    "served at M = 52",
    "served at CR3 = 2^M - 1",
    "served at PG = 0, else 9",
    "served at PG = 0, else 10",
    "served at PG = 1",
];
/// Rows where space numbers can be turned on.
const TURNED_ON: [&str; 3] = ["10 before 11", "11 for turning on", "served for turning on"];
/// Rows where space numbers can be on already.
const ON: [&str; 1] = ["served with a space number not 0"];

/// Every row of settings that one judges.
pub fn expected(judge: &str) -> Vec<String> {
    let mut rows: Vec<String> = ROWS.map(String::from).into();
    rows.extend(["PE", "PAE", "LME"].map(|bit| format!("9 for {bit} alone")));
    rows.extend(Settings::EXTENSIONS.map(|bit| format!("10 for CR4 bit {bit} alone")));
    if matches!(judge, "start" | "settings load") {
        rows.extend(TURNED_ON.map(String::from));
    }
    if judge != "start" {
        rows.extend(ON.map(String::from));
    }
    rows.iter().map(|row| format!("{judge}: {row}")).collect()
}

/// The rows of settings that one judges; space numbers are turned on where they were not on before.
pub fn settings_rows(judge: &str, settings: &Settings, numbered: bool) -> Vec<String> {
    let turned_on = settings.space_numbers() && !numbered;
    let rows = match settings.load_refusal(numbered) {
        Some(Answer::WIDTH) => width_rows(settings),
        Some(Answer::ROOT) => root_rows(settings),
        Some(Answer::PAGING) => paging_rows(settings),
        Some(Answer::EXTENSION) => extension_rows(settings, turned_on),
        Some(_) => applying([
            (!settings.paging(), "11 at PG = 0"),
            (settings.paging(), "11 for turning on"),
        ]),
        None => served_rows(settings, turned_on),
    };
    rows.iter().map(|row| format!("{judge}: {row}")).collect()
}

/// The rows that apply.
fn applying<const N: usize>(rows: [(bool, &str); N]) -> Vec<String> {
    let found = rows.iter().filter(|(applies, _)| *applies);
    found.map(|(_, row)| row.to_string()).collect()
}

/// The rows of a width that is not served.
fn width_rows(settings: &Settings) -> Vec<String> {
    let too_large = settings.width < 64 && settings.cr3 >> settings.width != 0;
    applying([
        (!settings.paging(), "2 at PG = 0"),
        (settings.paging(), "2 at PG = 1"),
        (settings.width == 31, "2 at M = 31"),
        (settings.width == 53, "2 at M = 53"),
        (settings.width > 63, "2 at M above 63"),
        (too_large, "2 before 8"),
    ])
}

/// The rows of a root too large for the width.
fn root_rows(settings: &Settings) -> Vec<String> {
    let missing = settings.paging() && !settings.long_mode();
    let unpaged = settings.space_numbers() && !settings.paging();
    applying([
        (!settings.paging(), "8 at PG = 0"),
        (settings.paging(), "8 at PG = 1"),
        (settings.width == 32, "8 at M = 32"),
        (settings.width == 52, "8 at M = 52"),
        (settings.cr3 == 1 << settings.width, "8 at CR3 = 2^M"),
        (missing, "8 before 9"),
        (unpaged, "8 before 11"),
    ])
}

/// The rows of paging on without PE, PAE or LME.
fn paging_rows(settings: &Settings) -> Vec<String> {
    let has = [
        settings.cr0 & Settings::PE != 0,
        settings.cr4 & Settings::PAE != 0,
        settings.efer & Settings::LME != 0,
    ];
    let extended = settings.cr4 & Settings::LEFT_OUT != 0;
    applying([
        (has == [false, true, true], "9 for PE alone"),
        (has == [true, false, true], "9 for PAE alone"),
        (has == [true, true, false], "9 for LME alone"),
        (extended, "9 before 10"),
    ])
}

/// The rows of an extension bit that is not served: of the one that is wrong alone, and of the order.
fn extension_rows(settings: &Settings, turned_on: bool) -> Vec<String> {
    let wrong = settings.cr4 & Settings::LEFT_OUT;
    let mut bits = Settings::EXTENSIONS.into_iter();
    let alone = bits.find(|bit| wrong == 1 << bit);
    let alone = alone.map(|bit| format!("10 for CR4 bit {bit} alone"));
    let later = turned_on && settings.cr3 & 0xFFF != 0;
    let mut rows = applying([(later, "10 before 11")]);
    rows.extend(alone);
    rows
}

/// The rows of settings that are served.
fn served_rows(settings: &Settings, turned_on: bool) -> Vec<String> {
    let on = Settings {
        cr0: settings.cr0 | Settings::PG,
        ..*settings
    };
    let last = (1 << settings.width) - 1;
    let number = settings.number() != 0;
    applying([
        (settings.width == 32, "served at M = 32"),
        (settings.width == 52, "served at M = 52"),
        (settings.cr3 == last, "served at CR3 = 2^M - 1"),
        (
            on.refusal() == Some(Answer::PAGING),
            "served at PG = 0, else 9",
        ),
        (
            on.refusal() == Some(Answer::EXTENSION),
            "served at PG = 0, else 10",
        ),
        (settings.paging(), "served at PG = 1"),
        (turned_on, "served for turning on"),
        (number, "served with a space number not 0"),
    ])
}
