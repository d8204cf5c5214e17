//! Appends to journals and reads full ones, with the proved journals and with plain ones.
mod areas;
mod medium;
#[path = "../race.rs"]
mod race;
mod slots;

use areas::{AREA, HEAD};
use medium::{MAX_RECORD, Medium, append_all, read_all};
use race::race;
use slots::Slot;

// the functions of exports.rt.txt: a slice is its pointer and its length
type ProvedAppend<M> =
    unsafe extern "C" fn(*mut M, usize, *const u64, usize, *const u8, usize) -> usize;
type ProvedRead<M> = unsafe extern "C" fn(*mut M, usize, usize) -> u64;

unsafe extern "C" {
    fn areas_append(
        medium: *mut u8,
        len: usize,
        sections: *const u64,
        count: usize,
        bytes: *const u8,
        bytes_len: usize,
    ) -> usize;
    fn areas_read(medium: *mut u8, len: usize, most: usize) -> u64;
    fn slots_append(
        medium: *mut Slot,
        len: usize,
        sections: *const u64,
        count: usize,
        bytes: *const u8,
        bytes_len: usize,
    ) -> usize;
    fn slots_read(medium: *mut Slot, len: usize, most: usize) -> u64;
}

// SAFETY, here and below: the slices are lent for the call, which is proved to stay inside them; any bytes may be lent.
fn call_append<M>(
    append: ProvedAppend<M>,
    medium: &mut [M],
    sections: &[u64],
    bytes: &[u8],
) -> usize {
    unsafe {
        append(
            medium.as_mut_ptr(),
            medium.len(),
            sections.as_ptr(),
            sections.len(),
            bytes.as_ptr(),
            bytes.len(),
        )
    }
}

fn call_read<M>(read: ProvedRead<M>, medium: &mut [M]) -> u64 {
    unsafe { read(medium.as_mut_ptr(), medium.len(), usize::MAX) }
}

fn print<const N: usize>(what: &str, count: usize, best: [f64; N]) {
    let each = best.map(|time| format!("{:.3}", time / count as f64 * 1e6));
    let ratio = best[1] / best[0];
    println!(
        "{what:48} {count:6} records, us each: {}, ratio {ratio:.2}",
        each.join(" ")
    );
}

/// Appends to an empty journal until it is full, and reads it.
fn fill<M: Medium>(
    what: &str,
    pieces: usize,
    sections: &[u64],
    bytes: &[u8],
    (proved_append, proved_read): (ProvedAppend<M>, ProvedRead<M>),
) {
    let count = sections.len();
    let (best, full) = race(
        15,
        &vec![M::FREE; pieces],
        [
            &|medium| call_append(proved_append, medium, sections, bytes),
            &|medium| append_all(medium, sections, bytes),
        ],
    );
    print(&format!("append, {what}"), count, best);
    let (best, _) = race(
        5,
        &full,
        [
            &|medium| call_read(proved_read, medium),
            &|medium| read_all(medium),
            &|medium| M::walk(medium),
        ],
    );
    print(&format!("read, {what}"), count, best);
}

/// Appends to one section, beside others that are full, in a journal of so many areas.
fn append_beside(areas: usize, others: u64, bytes: &[u8]) {
    const COUNT: usize = 32;
    const ROUNDS: usize = 64;
    let mut start = vec![0; areas * AREA];
    for section in 0..others {
        while u8::append(&mut start, section, bytes) {}
    }
    let own = [u64::MAX; COUNT];
    let end = others as usize * AREA + HEAD;
    append_all(&mut start, &own, bytes);
    let again = |medium: &mut [u8], append: &dyn Fn(&mut [u8]) -> usize| {
        let rounds = (0..ROUNDS).map(|_| {
            medium[end] = 0;
            append(medium)
        });
        rounds.sum::<usize>()
    };
    let (best, _) = race(
        15,
        &start,
        [
            &|medium| {
                again(medium, &|medium| {
                    call_append(areas_append, medium, &own, bytes)
                })
            },
            &|medium| again(medium, &|medium| append_all(medium, &own, bytes)),
        ],
    );
    let what = format!("append, {areas} areas, {others} others full");
    print(&what, COUNT * ROUNDS, best);
}

fn main() {
    const COUNT: u64 = 1024;
    println!("each row: proved, plain with the same questions, and for reading plain in one walk");
    for length in [100, MAX_RECORD] {
        let bytes: Vec<u8> = (0..length).map(|i| (i % 251) as u8).collect();
        let per_area = (AREA - HEAD - 1) / (3 + length);
        let in_turn: Vec<u64> = (0..per_area).flat_map(|_| 0..COUNT).collect();
        let what = format!("{COUNT} areas of {COUNT} sections, {length} bytes");
        let pieces = COUNT as usize * AREA;
        fill(&what, pieces, &in_turn, &bytes, (areas_append, areas_read));
    }
    let bytes: Vec<u8> = (0..100).collect();
    for others in [1, 32, COUNT] {
        append_beside(COUNT as usize + 1, others, &bytes);
    }
    for others in [1, 32] {
        append_beside(others as usize + 1, others, &bytes);
    }
    for (length, sections) in [(100, COUNT), (100, 64), (100, 1), (MAX_RECORD, 64)] {
        let bytes: Vec<u8> = (0..length).map(|i| (i % 251) as u8).collect();
        let in_turn: Vec<u64> = (0..COUNT).map(|i| i % sections).collect();
        let what = format!("{COUNT} slots of {sections} sections, {length} bytes");
        fill(
            &what,
            COUNT as usize,
            &in_turn,
            &bytes,
            (slots_append, slots_read),
        );
    }
}
