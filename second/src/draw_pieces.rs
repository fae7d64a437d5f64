//! Plays of large pages: pieces in many sets and neighbours, dropped through another piece or by a refused walk.

use crate::card::Card;
use crate::draw_card::LARGE_PAGES;
use crate::random::Random;

/// A piece of a page of so many bytes at an address: often its first or its last, else any.
fn piece(random: &mut Random, page: u64, bytes: u64) -> u64 {
    let any = random.below(bytes) & !0xFFF;
    page + random.pick(&[any, any, any, 0, bytes - 4096])
}

/// A read of any address of a piece.
fn read(random: &mut Random, piece: u64, mode: u8) -> Card {
    Card::Translate {
        address: piece | random.below(4096),
        access: 0,
        mode,
    }
}

/// Pieces of one large page and of what lies beside it, all asked for again after a drop.
pub fn large_page(random: &mut Random) -> Vec<Card> {
    let (page, bytes, entry, usual) = random.pick(&LARGE_PAGES);
    let mode = random.below(2) as u8;
    let mut asked: Vec<u64> = (0..random.between(3, 6))
        .map(|_| piece(random, page, bytes))
        .collect();
    asked.extend([page - 4096, page + bytes]);
    let mut cards: Vec<Card> = asked.iter().map(|at| read(random, *at, mode)).collect();
    let named = piece(random, page, bytes) | random.below(4096);
    if random.chance(40) {
        cards.push(Card::DropPage { address: named });
    } else {
        cards.extend(refused(random, named, entry, usual));
    }
    cards.extend(asked.iter().map(|at| read(random, *at, mode)));
    cards
}

/// A walk that is refused at a large page's entry or at the table that it has become, then the usual entry.
fn refused(random: &mut Random, named: u64, entry: u64, usual: u64) -> [Card; 3] {
    let table = usual & 0xF7F | random.pick(&[0x5000, 0x9000]);
    let changed = random.pick(&[table, table, usual & !1, usual | 1 << 13, usual & !4]);
    let store = |value| Card::Store {
        address: entry,
        value,
    };
    let ask = Card::Translate {
        address: named,
        access: random.pick(&[0, 1]),
        mode: 1,
    };
    [store(changed), ask, store(usual)]
}
