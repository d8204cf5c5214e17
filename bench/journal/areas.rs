//! A journal in areas in plain Rust: a mark, the section, and then each record behind a mark and its length.
use crate::medium::{MAX_RECORD, Medium, Place, Record, add};

pub const AREA: usize = 4096;
pub const HEAD: usize = 9;

fn section_of(area: &[u8]) -> Option<u64> {
    (area[0] != 0).then(|| u64::from_be_bytes(area[1..HEAD].try_into().unwrap()))
}

/// The records of an area from a place on.
struct Records<'a> {
    area: &'a [u8],
    at: usize,
}

impl<'a> Records<'a> {
    fn new(area: &'a [u8]) -> Self {
        Self { area, at: HEAD }
    }
}

impl<'a> Iterator for Records<'a> {
    type Item = &'a [u8];

    fn next(&mut self) -> Option<&'a [u8]> {
        let [1, high, low, rest @ ..] = self.area.get(self.at..)? else {
            return None;
        };
        let length = usize::from(u16::from_be_bytes([*high, *low]));
        let bytes = rest.get(..length).filter(|_| length <= MAX_RECORD)?;
        self.at += 3 + length;
        Some(bytes)
    }
}

/// Where the end mark stands behind the records; nowhere if there is something else.
fn end_of(area: &[u8]) -> Option<usize> {
    let mut records = Records::new(area);
    records.by_ref().for_each(drop);
    (area[0] == 1 && area[records.at] == 0).then_some(records.at)
}

/// The places of the areas of a section.
fn areas_of(medium: &[u8], section: u64) -> impl Iterator<Item = usize> {
    let areas = medium.chunks_exact(AREA).enumerate();
    areas.filter_map(move |(i, area)| (section_of(area) == Some(section)).then_some(i))
}

/// Takes the first free area for a section.
fn begin(medium: &mut [u8], section: u64) -> Option<usize> {
    let at = medium.chunks_exact(AREA).position(|area| area[0] == 0)?;
    let area = &mut medium[at * AREA..][..AREA];
    area[1..HEAD].copy_from_slice(&section.to_be_bytes());
    area[HEAD] = 0;
    area[0] = 1;
    Some(at)
}

fn append_to(area: &mut [u8], bytes: &[u8]) -> Option<()> {
    let at = end_of(area)?;
    let next = at + 3 + bytes.len();
    if next >= AREA {
        return None;
    }
    area[at + 1..at + 3].copy_from_slice(&(bytes.len() as u16).to_be_bytes());
    area[at + 3..next].copy_from_slice(bytes);
    area[next] = 0;
    area[at] = 1;
    Some(())
}

fn append(medium: &mut [u8], section: u64, bytes: &[u8]) -> Option<()> {
    if bytes.len() > MAX_RECORD {
        return None;
    }
    let mut own = areas_of(medium, section);
    let (first, second) = (own.next(), own.next());
    drop(own);
    if second.is_some() {
        return None;
    }
    let at = first.or_else(|| begin(medium, section))?;
    append_to(&mut medium[at * AREA..][..AREA], bytes)
}

fn first_above(medium: &[u8], low: Option<u64>) -> Option<Record<'_>> {
    let firsts = medium.chunks_exact(AREA).filter_map(|area| {
        let section = section_of(area).filter(|section| Some(*section) > low)?;
        Some((section, Records::new(area).next()?))
    });
    let (section, bytes) = firsts.min_by_key(|(section, _)| *section)?;
    let place = Place { section, number: 0 };
    Some(Record { place, bytes })
}

fn record_past(medium: &[u8], Place { section, number }: Place) -> Option<Record<'_>> {
    let at = areas_of(medium, section).next()?;
    let number = number + 1;
    let bytes = Records::new(&medium[at * AREA..][..AREA]).nth(number as usize)?;
    let place = Place { section, number };
    Some(Record { place, bytes })
}

impl Medium for u8 {
    const FREE: Self = 0;

    fn append(medium: &mut [Self], section: u64, bytes: &[u8]) -> bool {
        append(medium, section, bytes).is_some()
    }

    fn is_whole(medium: &[Self]) -> bool {
        let mut areas = medium.chunks_exact(AREA);
        areas.all(|area| match section_of(area) {
            Some(section) => end_of(area).is_some() && areas_of(medium, section).count() == 1,
            None => true,
        })
    }

    fn next(medium: &[Self], after: Option<Place>) -> Option<Record<'_>> {
        after
            .and_then(|place| record_past(medium, place))
            .or_else(|| first_above(medium, after.map(|place| place.section)))
    }

    fn walk(medium: &[Self]) -> u64 {
        let areas = medium.chunks_exact(AREA);
        let mut areas: Vec<_> = areas
            .filter_map(|area| Some((section_of(area)?, area)))
            .collect();
        areas.sort_unstable_by_key(|(section, _)| *section);
        let is_second = |pair: &[(u64, &[u8])]| pair[0].0 == pair[1].0;
        if areas.windows(2).any(is_second) || areas.iter().any(|area| end_of(area.1).is_none()) {
            return 0;
        }
        let mut sum = 0;
        for (section, area) in areas {
            for (number, bytes) in (0..).zip(Records::new(area)) {
                let place = Place { section, number };
                sum = add(sum, &Record { place, bytes });
            }
        }
        sum
    }
}
