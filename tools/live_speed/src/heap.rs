//! An indexed binary heap: each entry knows its slot, and each slot the place of its entry.

#[derive(Clone, Copy)]
pub struct Entry {
    key: u128,
    pub slot: u32,
}

impl Entry {
    #[inline(always)]
    pub fn new(due: u64, number: u64, slot: u32) -> Entry {
        Entry { key: (due as u128) << 64 | number as u128, slot }
    }

    #[inline(always)]
    pub fn due(self) -> u64 {
        (self.key >> 64) as u64
    }

    #[inline(always)]
    pub fn is_before(self, other: Entry) -> bool {
        self.key < other.key
    }
}

#[derive(Default)]
pub struct Heap {
    entries: Vec<Entry>,
    places: Vec<u32>,
}

impl Heap {
    pub fn grow(&mut self, slots: usize) {
        self.places.resize(slots, 0);
    }

    pub fn len(&self) -> usize {
        self.entries.len()
    }

    #[inline(always)]
    pub fn peek(&self) -> Option<Entry> {
        self.entries.first().copied()
    }

    #[inline(always)]
    fn put(&mut self, place: usize, entry: Entry) {
        self.entries[place] = entry;
        self.places[entry.slot as usize] = place as u32;
    }

    #[inline]
    pub fn insert(&mut self, entry: Entry) {
        let place = self.entries.len();
        self.entries.push(entry);
        self.rise(place, entry);
    }

    #[inline(always)]
    fn rise(&mut self, mut hole: usize, entry: Entry) {
        while hole > 0 {
            let above = (hole - 1) / 2;
            if self.entries[above].is_before(entry) {
                break;
            }
            self.put(hole, self.entries[above]);
            hole = above;
        }
        self.put(hole, entry);
    }

    #[inline]
    pub fn remove(&mut self, slot: u32) {
        let mut hole = self.places[slot as usize] as usize;
        let Some(last) = self.entries.pop() else { return };
        let length = self.entries.len();
        if hole >= length {
            return;
        }
        while 2 * hole + 2 < length {
            let left = 2 * hole + 1;
            let lesser = left + usize::from(self.entries[left + 1].is_before(self.entries[left]));
            self.put(hole, self.entries[lesser]);
            hole = lesser;
        }
        let only = 2 * hole + 1;
        if only < length {
            self.put(hole, self.entries[only]);
            hole = only;
        }
        self.rise(hole, last);
    }
}
