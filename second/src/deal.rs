//! Random decks that build their own tables and ask for few pages, so that places are hit.

use crate::card::{Card, CARD};
use crate::draw_card::{drop_page, load_root, outside_store, paging_off, refused_settings};
use crate::draw_card::{settings, table_store, translation, typed, Likely};
use crate::draw_card::{ENTRIES, PAGES, PATH_ENTRIES, SET_PAGES};
use crate::draw_pieces::large_page;
use crate::random::Random;

/// A deck of so many cards: tables, settings, root, then anything.
pub fn deal(random: &mut Random, cards: usize) -> Vec<u8> {
    let likely = Likely {
        global: random.pick(&[20, 90]),
        numbered: random.pick(&[5, 90]),
    };
    let mut deal = Deal {
        deck: Vec::new(),
        pages: (0..8).map(|_| random.pick(&PAGES)).collect(),
        likely,
        random,
    };
    deal.tables();
    while deal.deck.len() < CARD * cards {
        deal.play();
    }
    deal.deck.truncate(CARD * cards);
    deal.deck
}

/// A deck of up to so many cards, at times damaged, cut short, rubbish or empty.
pub fn deal_damaged(random: &mut Random, most: usize) -> Vec<u8> {
    let cards = if random.chance(80) {
        most
    } else {
        random.below(most as u64 + 1) as usize
    };
    let mut deck = deal(random, cards);
    if random.chance(10) {
        for _ in 0..random.between(1, 4) {
            let at = random.below(deck.len() as u64) as usize;
            let flip = 1 << random.below(8);
            deck.iter_mut().skip(at).take(1).for_each(|b| *b ^= flip);
        }
    }
    if random.chance(4) {
        deck.iter_mut().for_each(|byte| *byte = random.word() as u8);
        deck.iter_mut().step_by(CARD).for_each(|kind| *kind %= 8);
    }
    if random.chance(20) {
        let cut = random.below(CARD as u64) as usize;
        deck.truncate(deck.len().saturating_sub(cut));
    }
    deck
}

/// A deck that is being dealt, and the pages that it asks for most.
struct Deal<'a> {
    random: &'a mut Random,
    deck: Vec<u8>,
    pages: Vec<u64>,
    likely: Likely,
}

impl Deal<'_> {
    /// Adds the card, the bytes that it does not use 0 or at random.
    fn put(&mut self, card: Card) {
        let mut bytes = [0; CARD];
        if self.random.chance(50) {
            bytes = [0; CARD].map(|_: u8| self.random.word() as u8);
        }
        card.write(&mut bytes);
        self.deck.extend(bytes);
    }

    /// Adds a store.
    fn store(&mut self, address: u64, value: u64) {
        self.put(Card::Store { address, value });
    }

    /// Adds a translation of any address of the page.
    fn ask(&mut self, page: u64, access: u8, mode: u8) {
        let address = page | self.random.below(4096);
        self.put(Card::Translate {
            address,
            access,
            mode,
        });
    }

    /// Adds a translation of one of the pages.
    fn translate(&mut self) {
        let card = translation(self.random, &self.pages);
        self.put(card);
    }

    /// Adds served settings, where CR3 allows for them.
    fn settings(&mut self) {
        let card = settings(self.random, self.likely);
        self.put(card);
    }

    /// Adds the tables, settings and a root.
    fn tables(&mut self) {
        for (address, value) in ENTRIES {
            if self.random.chance(90) {
                let global = if self.likely.global > 50 { 60 } else { 10 };
                let value = value | self.random.flag(1 << 8, global);
                let value = typed(self.random, address, value);
                self.store(address, value);
            }
        }
        self.settings();
        self.put(Card::LoadRoot { value: 0x1000 });
    }

    /// Adds any play of one or more cards: translations first of all, of few pages.
    fn play(&mut self) {
        match self.random.below(122) {
            0..=29 => self.translate(),
            30..=39 => self.repeat(),
            40..=44 => self.sweep(),
            45..=59 => self.change(),
            60..=70 => self.move_page(),
            71..=80 => self.pieces(),
            81 => self.outside_root(),
            82..=83 => self.narrowed(),
            84 => self.unpaged(),
            85..=86 => self.settings(),
            87..=92 => self.switch(),
            _ => {
                let card = self.single();
                self.put(card);
            }
        }
    }

    /// A single card that is no translation.
    fn single(&mut self) -> Card {
        let Deal { random, likely, .. } = self;
        match random.below(29) {
            0..=2 => outside_store(random),
            3..=8 => drop_page(random, &self.pages),
            9..=10 => Card::DropAll,
            11..=20 => load_root(random, *likely),
            21..=26 => refused_settings(random, *likely),
            _ => Card::Unknown {
                kind: random.pick(&[6, 7, 128, 255]),
            },
        }
    }

    /// Asks for one page several times, in the same mode and with any access.
    fn repeat(&mut self) {
        let (page, mode) = (self.random.pick(&self.pages), self.random.below(2) as u8);
        for _ in 0..self.random.between(2, 4) {
            let access = self.random.pick(&[0, 0, 1, 1, 2]);
            self.ask(page, access, mode);
        }
    }

    /// Asks for pages of one set in a row, more of them than there are places; at times of another
    /// set between.
    fn sweep(&mut self) {
        let (access, mode) = (self.random.below(2) as u8, self.random.below(2) as u8);
        let first = self.random.below(SET_PAGES);
        let last = first + self.random.between(3, 6);
        for number in (first..=last).chain(first..=first + 1) {
            let page = PAGES[(number % SET_PAGES) as usize] | self.random.flag(8 << 12, 20);
            self.ask(page, access, mode);
        }
    }

    /// Stores into an entry, asks for pages and mostly stores the usual value again.
    fn change(&mut self) {
        let (address, usual) = self.random.pick(&ENTRIES);
        let store = table_store(self.random, address, usual);
        self.put(store);
        for _ in 0..self.random.below(4) {
            if self.random.chance(20) {
                let drop = drop_page(self.random, &self.pages);
                self.put(drop);
            } else {
                self.translate();
            }
        }
        if self.random.chance(75) {
            self.store(address, usual);
        }
    }

    /// Reads a page, changes its path, asks again and mostly drops it; then all as before.
    fn move_page(&mut self) {
        let (page, address, usual) = self.random.pick(&PATH_ENTRIES);
        let mode = self.random.below(2) as u8;
        self.ask(page, 0, mode);
        let bits = [1, 2, 4, 8, 0x10, 0x1000, 0x3000, 0x20_0000];
        let bit = self.random.pick(&bits);
        let outside = usual & 0xFFF | 0x9000;
        let value = self.random.pick(&[usual ^ bit, outside]);
        self.store(address, value);
        for _ in 0..self.random.between(1, 3) {
            let access = self.random.pick(&[0, 1, 1, 2]);
            self.ask(page, access, mode);
        }
        if self.random.chance(50) {
            let drop = drop_page(self.random, &[page]);
            self.put(drop);
            self.ask(page, 0, mode);
        }
        self.store(address, usual);
        self.ask(page, 0, mode);
    }

    /// Switches between two tasks, mostly without a drop on the way back, and asks both for the same pages.
    fn switch(&mut self) {
        let pages = [(); 2].map(|()| self.random.pick(&self.pages));
        let mode = self.random.below(2) as u8;
        let first = 0x1000 | self.random.between(1, 3);
        let second = 0x6000 | self.random.between(1, 3);
        for root in [first, second, first, second] {
            let value = root | self.random.flag(1 << 63, 70);
            self.put(Card::LoadRoot { value });
            for page in pages {
                self.ask(page, 0, mode);
            }
        }
        if self.random.chance(30) {
            let drop = drop_page(self.random, &pages);
            self.put(drop);
        }
    }

    /// Asks for pieces of a large page and its neighbours, drops it, and asks again.
    fn pieces(&mut self) {
        for card in large_page(self.random) {
            self.put(card);
        }
    }

    /// Turns paging off, asks for pages and mostly turns it on again.
    fn unpaged(&mut self) {
        let off = paging_off(self.random);
        self.put(off);
        for _ in 0..self.random.between(1, 3) {
            self.translate();
        }
        if self.random.chance(95) {
            self.settings();
        }
    }

    /// Loads a large root, then settings that are often too narrow for it, and a good root again.
    fn narrowed(&mut self) {
        let value = 1 << self.random.pick(&[32, 36, 39]);
        self.put(Card::LoadRoot { value });
        if self.random.chance(50) {
            self.settings();
        } else {
            let card = refused_settings(self.random, self.likely);
            self.put(card);
        }
        self.put(Card::LoadRoot { value: 0x1000 });
    }

    /// Loads a root outside memory, asks for pages and loads a good root again.
    fn outside_root(&mut self) {
        let value = self.random.pick(&[0x8000, 0x9000, 0xFFFF_F000]);
        self.put(Card::LoadRoot { value });
        for _ in 0..self.random.between(1, 3) {
            self.translate();
        }
        self.put(Card::LoadRoot { value: 0x1000 });
    }
}
