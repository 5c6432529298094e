//! The places of values, and the keys that name them.

use std::collections::TryReserveError;
use std::mem;
use tokio::time::Instant;

/// Names a value in [`Delays`](crate::Delays), from its insertion on. Once the value has left, the key names none.
#[derive(Clone, Copy, Debug, PartialEq, Eq, Hash)]
pub struct Key {
    /// The place of the value, which another one may have later.
    pub(crate) place: u32,
    /// The number of its insertion, from 0.
    number: u64,
}

/// What is known of a value that waits.
pub(crate) struct Entry<T> {
    pub value: T,
    pub deadline: Instant,
    number: u64,
}

enum Place<T> {
    /// It was used, and has no value. Which place is to be used after it, where there is one that was used too.
    Free {
        next: Option<u32>,
    },
    Taken(Entry<T>),
}

/// Values, each at a place of its own. A place is used again once its value has left.
pub(crate) struct Values<T> {
    places: Vec<Place<T>>,
    /// The free place that is to be used first.
    free: Option<u32>,
    len: usize,
    /// How many insertions there were.
    insertions: u64,
}

impl<T> Values<T> {
    pub fn new() -> Values<T> {
        Values {
            places: Vec::new(),
            free: None,
            len: 0,
            insertions: 0,
        }
    }

    /// How many values there are: at most `u32::MAX`.
    pub fn len(&self) -> usize {
        self.len
    }

    /// Makes room for so many values, of which no more take memory then.
    pub fn try_reserve(&mut self, room: usize) -> Result<(), TryReserveError> {
        let additional = room.saturating_sub(self.places.len());
        self.places.try_reserve(additional)
    }

    /// Puts a value at a free place.
    ///
    /// # Panics
    ///
    /// There are `u32::MAX` values.
    pub fn put(&mut self, value: T, deadline: Instant) -> Key {
        let number = self.insertions;
        let place = self.free_place();
        self.places[place as usize] = Place::Taken(Entry {
            value,
            deadline,
            number,
        });
        self.len += 1;
        self.insertions += 1;
        Key { place, number }
    }

    /// Takes out the value that a key names.
    pub fn take(&mut self, key: Key) -> Option<Entry<T>> {
        self.get(key)?;
        let free = Place::Free { next: self.free };
        let Place::Taken(entry) = mem::replace(&mut self.places[key.place as usize], free) else {
            unreachable!("the key names a value");
        };
        self.free = Some(key.place);
        self.len -= 1;
        Some(entry)
    }

    /// What is known of the value that a key names.
    pub fn get(&self, key: Key) -> Option<&Entry<T>> {
        match self.places.get(key.place as usize)? {
            Place::Taken(entry) if entry.number == key.number => Some(entry),
            _ => None,
        }
    }

    /// The deadline of the value that a key names, to be changed.
    pub fn deadline_mut(&mut self, key: Key) -> Option<&mut Instant> {
        match self.places.get_mut(key.place as usize)? {
            Place::Taken(entry) if entry.number == key.number => Some(&mut entry.deadline),
            _ => None,
        }
    }

    /// The key of the value at a place.
    pub fn key_at(&self, place: u32) -> Option<Key> {
        match self.places.get(place as usize)? {
            Place::Taken(entry) => Some(Key {
                place,
                number: entry.number,
            }),
            Place::Free { .. } => None,
        }
    }

    /// Each place that has a value, and when that is to come.
    pub fn deadlines(&self) -> impl Iterator<Item = (u32, Instant)> {
        (0..)
            .zip(&self.places)
            .filter_map(|(number, place)| match place {
                Place::Taken(entry) => Some((number, entry.deadline)),
                Place::Free { .. } => None,
            })
    }

    /// Drops all values. Their keys name none from now on.
    pub fn clear(&mut self) {
        (self.free, self.len) = (None, 0);
        self.places.clear();
    }

    /// A place that has no value, and is none of the free ones any more.
    fn free_place(&mut self) -> u32 {
        if let Some(place) = self.free {
            if let Place::Free { next } = self.places[place as usize] {
                self.free = next;
            }
            return place;
        }
        let place = u32::try_from(self.places.len()).expect("fewer than 2^32 values");
        self.places.push(Place::Free { next: None });
        place
    }
}
