//! What a journal lies in, with its records and their places, in plain Rust.

pub const MAX_RECORD: usize = 1068;

#[derive(Clone, Copy, PartialEq, Eq, PartialOrd, Ord)]
pub struct Place {
    pub section: u64,
    pub number: u64,
}

pub struct Record<'a> {
    pub place: Place,
    pub bytes: &'a [u8],
}

/// A piece of what a journal lies in: bytes of areas, or slots.
pub trait Medium: Copy + PartialEq {
    const FREE: Self;

    /// Appends a record; false where there is no room.
    fn append(medium: &mut [Self], section: u64, bytes: &[u8]) -> bool;

    /// Whether there is nothing but records.
    fn is_whole(medium: &[Self]) -> bool;

    /// The record past a place, or the first; nothing is kept from one question to the next.
    fn next(medium: &[Self], after: Option<Place>) -> Option<Record<'_>>;

    /// A number of all records in order, read in one walk; 0 where there is something else.
    fn walk(medium: &[Self]) -> u64;
}

/// Adds a record to a number of those before it: its place, its length and a byte of it.
pub fn add(sum: u64, record: &Record<'_>) -> u64 {
    let bytes = record.bytes;
    let middle = bytes.get(bytes.len() / 2).copied().unwrap_or(0);
    let Place { section, number } = record.place;
    let length = bytes.len() as u64;
    sum.rotate_left(1)
        ^ section
        ^ number.rotate_left(16)
        ^ length.rotate_left(32)
        ^ u64::from(middle)
}

/// Appends these bytes to each of these sections, and answers how many took them.
pub fn append_all<M: Medium>(medium: &mut [M], sections: &[u64], bytes: &[u8]) -> usize {
    let took = |section: &&u64| M::append(medium, **section, bytes);
    sections.iter().filter(took).count()
}

/// A number of all records in order, each asked for by the place of the one before; 0 where there is something else.
pub fn read_all<M: Medium>(medium: &[M]) -> u64 {
    if !M::is_whole(medium) {
        return 0;
    }
    let mut sum = 0;
    let mut after = None;
    while let Some(record) = M::next(medium, after) {
        sum = add(sum, &record);
        after = Some(record.place);
    }
    sum
}
