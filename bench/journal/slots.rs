//! A journal in slots in plain Rust: a record a slot, with its section and an age one above the highest.
use crate::medium::{MAX_RECORD, Medium, Place, Record, add};
use std::iter::successors;

#[derive(Clone, Copy, PartialEq)]
#[repr(C)]
pub struct Slot {
    section: u64,
    age: u64,
    len: u16,
    bytes: [u8; MAX_RECORD],
}

/// A section, an age and a place in the list: slots are read in this order.
type Key = (u64, u64, usize);

impl Slot {
    fn key(&self, at: usize) -> Option<Key> {
        (self.age > 0).then_some((self.section, self.age, at))
    }

    fn record(&self, number: u64) -> Record<'_> {
        let section = self.section;
        let place = Place { section, number };
        let bytes = &self.bytes[..usize::from(self.len)];
        Record { place, bytes }
    }
}

fn keys(slots: &[Slot]) -> impl Iterator<Item = Key> {
    let keyed = slots.iter().enumerate();
    keyed.filter_map(|(at, slot)| slot.key(at))
}

/// The keys from one on, each found by a look at every slot.
fn following(slots: &[Slot], from: Key) -> impl Iterator<Item = Key> {
    let next = move |last: &Key| keys(slots).filter(|key| key > last).min();
    successors(next(&from), next)
}

impl Medium for Slot {
    const FREE: Self = Self {
        section: 0,
        age: 0,
        len: 0,
        bytes: [0; MAX_RECORD],
    };

    fn append(slots: &mut [Self], section: u64, bytes: &[u8]) -> bool {
        let free = slots.iter().position(|slot| slot.age == 0);
        let highest = slots.iter().map(|slot| slot.age).max().unwrap_or(0);
        let (Some(at), Some(age)) = (free, highest.checked_add(1)) else {
            return false;
        };
        if bytes.len() > MAX_RECORD {
            return false;
        }
        let len = bytes.len() as u16;
        let slot = &mut slots[at];
        *slot = Self {
            section,
            age,
            len,
            ..Self::FREE
        };
        slot.bytes[..bytes.len()].copy_from_slice(bytes);
        true
    }

    fn is_whole(slots: &[Self]) -> bool {
        following(slots, (0, 0, 0)).all(|key| {
            usize::from(slots[key.2].len) <= MAX_RECORD
                && !keys(slots).any(|other| other.1 == key.1 && other < key)
        })
    }

    fn next(slots: &[Self], after: Option<Place>) -> Option<Record<'_>> {
        let from = after.map_or(0, |place| place.section);
        let mut next = Place {
            section: from,
            number: 0,
        };
        for (section, _, at) in following(slots, (from, 0, 0)) {
            if section > next.section {
                next = Place { section, number: 0 };
            }
            if after.is_none_or(|after| after < next) {
                return Some(slots[at].record(next.number));
            }
            next.number += 1;
        }
        None
    }

    fn walk(slots: &[Self]) -> u64 {
        let mut keys: Vec<_> = keys(slots).collect();
        let mut ages: Vec<_> = keys.iter().map(|key| key.1).collect();
        ages.sort_unstable();
        let is_short = |slot: &Slot| usize::from(slot.len) <= MAX_RECORD;
        if ages.windows(2).any(|pair| pair[0] == pair[1]) || !slots.iter().all(is_short) {
            return 0;
        }
        keys.sort_unstable();
        keys.chunk_by(|a, b| a.0 == b.0)
            .flat_map(|section| (0..).zip(section))
            .fold(0, |sum, (number, key)| {
                add(sum, &slots[key.2].record(number))
            })
    }
}
