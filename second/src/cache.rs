//! The cache: 16 sets of four places, in fill order.

use crate::translate::Rights;

const SETS: u64 = 16;
const PLACES: usize = 4;
/// The largest space number.
pub const LAST_NUMBER: u64 = 4095;

/// One remembered piece of 4 KiB; a flag is 0 or 1, and the two spare bits beside the flags count for nothing.
#[derive(Clone, Copy, Debug, Default, PartialEq, Eq)]
pub struct Place {
    pub marked: u8,
    pub tag: u64,
    pub frame: u64,
    pub size: u8,
    pub write: u8,
    pub user: u8,
    pub fetch: u8,
    pub dirty: u8,
    pub global: u8,
    pub spare: u8,
    pub memory_type: u8,
    pub number: u16,
}

impl Place {
    /// Whether the place counts as filled in that set.
    pub fn filled(&self, set: u64) -> bool {
        self.marked != 0
            && self.tag < 1 << 52
            && self.tag % SETS == set
            && self.frame < 1 << 40
            && (1..=3).contains(&self.size)
            && self.memory_type < 8
            && u64::from(self.number) <= LAST_NUMBER
    }

    /// Whether the place's own page, at the place's own size, contains the address.
    pub fn covers(&self, address: u64) -> bool {
        let bytes = bytes(self.size);
        self.tag / (bytes / 4096) == address / bytes
    }

    /// Whether the place is of that space number and not G.
    pub fn only_of(&self, number: u64) -> bool {
        self.global == 0 && u64::from(self.number) == number
    }

    /// Whether the place counts under that space number: it is of the number, or G.
    pub fn counts_under(&self, number: u64) -> bool {
        self.global != 0 || u64::from(self.number) == number
    }

    /// Whether a drop of the address under that space number takes the place.
    pub fn taken(&self, address: u64, number: u64) -> bool {
        self.covers(address) && self.counts_under(number)
    }

    /// Whether a fill of the new place leaves this one.
    pub fn stays_beside(&self, new: &Place) -> bool {
        let apart = new.global == 0 && !self.counts_under(new.number.into());
        self.tag != new.tag || apart
    }

    /// The rights that the place holds.
    pub fn rights(&self) -> Rights {
        Rights {
            write: self.write != 0,
            user: self.user != 0,
            fetch: self.fetch != 0,
        }
    }

    /// Whether the place allows the access, with D where it is a write.
    pub fn serves(&self, needed: Rights, write: bool) -> bool {
        self.rights().allow(needed) && (self.dirty != 0 || !write)
    }
}

/// Four places, the latest fill first.
#[derive(Clone, Copy, Debug, Default, PartialEq, Eq)]
pub struct Set {
    pub places: [Place; PLACES],
}

impl Set {
    /// The set with these places in order, as many as there is room for, zeros after them.
    fn of(places: impl Iterator<Item = Place>) -> Set {
        let mut set = Set::default();
        for (room, place) in set.places.iter_mut().zip(places) {
            *room = place;
        }
        set
    }

    /// This set, the one of that many, with only its filled places that are wanted, gaps closed in order.
    fn keep(self, set: u64, wanted: impl Fn(&Place) -> bool) -> Set {
        let places = self.places.into_iter();
        Set::of(places.filter(|place| place.filled(set) && wanted(place)))
    }

    /// This set with the new place first and no other that it takes the room of.
    fn fill(self, new: Place) -> Set {
        let others = self.keep(set_of(new.tag), |place| place.stays_beside(&new));
        let filled = others.places.into_iter().filter(|place| place.marked != 0);
        Set::of([new].into_iter().chain(filled))
    }
}

/// The bytes of a page of that size.
pub fn bytes(size: u8) -> u64 {
    match size {
        1 => 1 << 12,
        2 => 1 << 21,
        _ => 1 << 30,
    }
}

/// A tag's set.
pub fn set_of(tag: u64) -> u64 {
    tag % SETS
}

/// The remembered translations.
#[derive(Clone, Debug, PartialEq, Eq)]
pub struct Cache {
    pub sets: [Set; SETS as usize],
}

impl Cache {
    /// The cache that holds nothing, all zeros.
    pub fn empty() -> Cache {
        Cache {
            sets: [Set::default(); SETS as usize],
        }
    }

    /// The filled places, each with its set.
    pub fn filled(&self) -> impl Iterator<Item = (u64, &Place)> {
        let sets = (0..).zip(&self.sets);
        let places = sets.flat_map(|(set, four)| four.places.iter().map(move |p| (set, p)));
        places.filter(|(set, place)| place.filled(*set))
    }

    /// The filled places with the tag, in order.
    pub fn with_tag(&self, tag: u64) -> impl Iterator<Item = &Place> {
        let places = self.sets[set_of(tag) as usize].places.iter();
        places.filter(move |place| place.filled(set_of(tag)) && place.tag == tag)
    }

    /// The first place with the tag under the number that allows the access, and has D for a write.
    pub fn hit(&self, tag: u64, number: u64, needed: Rights, write: bool) -> Option<&Place> {
        let mut places = self.with_tag(tag);
        places.find(|place| place.counts_under(number) && place.serves(needed, write))
    }

    /// Puts a new place first in its set.
    pub fn fill(&mut self, new: Place) {
        let set = &mut self.sets[set_of(new.tag) as usize];
        *set = set.fill(new);
    }

    /// Rewrites every set without the filled places that the test takes.
    pub fn drop(&mut self, takes: impl Fn(&Place) -> bool) {
        for (number, set) in (0..).zip(&mut self.sets) {
            *set = set.keep(number, |place| !takes(place));
        }
    }

    /// The places that a drop of the address under the number takes, each with its set.
    pub fn taken(&self, address: u64, number: u64) -> impl Iterator<Item = (u64, &Place)> {
        self.filled()
            .filter(move |(_, place)| place.taken(address, number))
    }

    /// Drops each place under the number whose page contains the address.
    pub fn drop_page(&mut self, address: u64, number: u64) {
        self.drop(|place| place.taken(address, number));
    }
}

#[cfg(test)]
mod tests {
    use super::{Cache, Place, Set};
    use crate::translate::Rights;

    const NOTHING: Rights = Rights {
        write: false,
        user: false,
        fetch: false,
    };

    /// A filled place with the tag.
    fn place(tag: u64) -> Place {
        Place {
            marked: 1,
            tag,
            frame: tag + 1,
            size: 1,
            ..Place::default()
        }
    }

    /// The tags of set 3 in order, 0 for a place of zeros.
    fn tags(cache: &Cache) -> [u64; 4] {
        cache.sets[3].places.map(|place| place.tag)
    }

    /// The latest fill is first, a fifth falls out, a refill moves to the front.
    #[test]
    fn fill_order_decides() {
        let mut cache = Cache::empty();
        for tag in [0x13, 0x23, 0x33, 0x43] {
            cache.fill(place(tag));
        }
        assert_eq!(tags(&cache), [0x43, 0x33, 0x23, 0x13]);
        assert!(cache.hit(0x13, 0, NOTHING, false).is_some());
        cache.fill(place(0x53));
        assert_eq!(tags(&cache), [0x53, 0x43, 0x33, 0x23]);
        cache.fill(place(0x33));
        assert_eq!(tags(&cache), [0x33, 0x53, 0x43, 0x23]);
        cache.drop_page(0x5_3FFF, 0);
        assert_eq!(tags(&cache), [0x33, 0x43, 0x23, 0]);
    }

    /// The cache filled with places of that size and these tags.
    fn pieces(size: u8, tags: &[u64]) -> Cache {
        let mut cache = Cache::empty();
        for tag in tags {
            cache.fill(Place {
                size,
                ..place(*tag)
            });
        }
        cache
    }

    /// A drop takes every piece of a large page, in every set, and no neighbour.
    #[test]
    fn a_drop_takes_every_piece() {
        for (size, bits) in [(1, 0), (2, 9), (3, 18)] {
            let page = 5 << bits;
            let next = page + (1 << bits);
            let own = [page, next - 1, page + (next - page) / 2];
            let neighbours = [page - 1, next];
            for named in own {
                let mut cache = pieces(size, &[own.as_slice(), &neighbours].concat());
                let covers = |(_, place): (u64, &Place)| place.covers(named << 12);
                assert!(cache.filled().any(covers));
                cache.drop_page(named << 12 | 0xABC, 0);
                assert_eq!(cache, pieces(size, &neighbours));
            }
        }
    }

    /// A drop goes by the size that a place holds, whatever the size of another.
    #[test]
    fn a_drop_goes_by_the_places_own_size() {
        let mut cache = pieces(2, &[0x600]);
        cache.fill(place(0x611));
        cache.fill(place(0x612));
        cache.drop_page(0x61_1000, 0);
        let mut left = Cache::empty();
        left.fill(place(0x612));
        assert_eq!(cache, left);
    }

    /// A fill takes its exact tag and no other piece of its page.
    #[test]
    fn a_fill_leaves_the_other_pieces() {
        let mut cache = pieces(2, &[0x603, 0x613]);
        cache.fill(place(0x603));
        assert_eq!(tags(&cache), [0x603, 0x613, 0, 0]);
    }

    /// A drop rewrites every set: what is not filled becomes zeros.
    #[test]
    fn a_drop_rewrites_every_set() {
        let mut cache = Cache::empty();
        for set in &mut cache.sets {
            set.places[2].frame = 7;
        }
        cache.drop_page(0, 0);
        assert_eq!(cache, Cache::empty());
    }

    /// A drop of all but G places leaves them in order, and zeros.
    #[test]
    fn global_places_stay() {
        let mut cache = Cache::empty();
        for tag in [0x13, 0x23, 0x33] {
            cache.fill(Place {
                global: u8::from(tag != 0x23),
                ..place(tag)
            });
        }
        cache.drop(|place| place.global == 0);
        assert_eq!(tags(&cache), [0x33, 0x13, 0, 0]);
        assert_eq!(cache.sets[3].places[2], Place::default());
    }

    /// A place that does not count as filled is never hit and becomes zeros.
    #[test]
    fn places_that_are_not_filled() {
        let good = place(0x13);
        let wrong = [
            Place { marked: 0, ..good },
            Place { tag: 0x14, ..good },
            Place { size: 0, ..good },
            Place { size: 4, ..good },
            Place {
                memory_type: 8,
                ..good
            },
            Place {
                number: 4096,
                ..good
            },
            Place {
                frame: 1 << 40,
                ..good
            },
            Place {
                tag: 1 << 52 | 3,
                ..good
            },
        ];
        for bad in wrong {
            let mut cache = Cache::empty();
            cache.sets[3].places = [bad, good, bad, bad];
            assert_eq!(
                cache.with_tag(bad.tag).count(),
                usize::from(bad.tag == 0x13)
            );
            cache.drop_page(0x2_3000, 0);
            assert_eq!(cache.sets[3], Set::of([good].into_iter()));
        }
    }

    /// A write needs D, and a hit is the first place that serves.
    #[test]
    fn the_first_place_that_serves() {
        let mut cache = Cache::empty();
        let (clean, mut dirty) = (place(0x13), place(0x13));
        (dirty.dirty, dirty.frame) = (2, 9);
        cache.sets[3].places = [clean, dirty, clean, clean];
        let frame = |write| cache.hit(0x13, 0, NOTHING, write).map(|place| place.frame);
        assert_eq!((frame(false), frame(true)), (Some(0x14), Some(9)));
    }
    /// A place with the tag, of that number, G or not.
    fn numbered(tag: u64, number: u16, global: u8) -> Place {
        Place {
            number,
            global,
            ..place(tag)
        }
    }

    /// The numbers of set 3 in order.
    fn numbers(cache: &Cache) -> [u16; 4] {
        cache.sets[3].places.map(|place| place.number)
    }

    /// A fill takes its tag's places of its number and G; a G place all of its tag.
    #[test]
    fn a_fill_goes_by_number() {
        let mut cache = Cache::empty();
        for number in [1, 2, 4095] {
            cache.fill(numbered(0x13, number, 0));
        }
        assert_eq!(numbers(&cache), [4095, 2, 1, 0]);
        cache.fill(numbered(0x13, 2, 0));
        assert_eq!(numbers(&cache), [2, 4095, 1, 0]);
        cache.fill(numbered(0x13, 7, 1));
        assert_eq!(numbers(&cache), [7, 0, 0, 0]);
        cache.fill(numbered(0x13, 1, 0));
        assert_eq!(numbers(&cache), [1, 0, 0, 0]);
        assert_eq!(tags(&cache), [0x13, 0, 0, 0]);
    }

    /// A hit wants the same number or a G place.
    #[test]
    fn a_hit_goes_by_number() {
        let mut cache = Cache::empty();
        cache.fill(numbered(0x13, 1, 0));
        cache.fill(numbered(0x23, 1, 1));
        let hit = |tag, number| cache.hit(tag, number, NOTHING, false).is_some();
        assert!(hit(0x13, 1) && !hit(0x13, 2) && !hit(0x13, 0));
        assert!(hit(0x23, 1) && hit(0x23, 2) && hit(0x23, 0));
    }

    /// A drop of a page takes the number's and G places.
    #[test]
    fn a_page_drop_goes_by_number() {
        let mut cache = Cache::empty();
        for place in [numbered(0x13, 1, 0), numbered(0x13, 2, 0)] {
            cache.fill(place);
        }
        cache.drop_page(0x1_3000, 1);
        assert_eq!(numbers(&cache), [2, 0, 0, 0]);
        cache.fill(numbered(0x13, 3, 1));
        cache.drop_page(0x1_3000, 1);
        assert_eq!(cache, Cache::empty());
    }
}
