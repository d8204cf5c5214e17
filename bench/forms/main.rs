//! Writes and reads a million messages, and a million records of each kind, with the proved forms and with plain ones.
mod plain;
#[path = "../race.rs"]
mod race;

use plain::{
    Ack, Activity, Fault, NewAck, NewActivity, NewCertified, NewTipAck, Part, Short, TipAck,
};
use plain::{read_activity, read_message, write_activity, write_message};
use race::race;

/// The numbers of a message or of a record.
#[repr(C)]
struct Numbers {
    tip: u64,
    height: u64,
    epoch: u64,
    signer: u64,
}

/// The byte strings of messages and records; the certificate is that of eleven signers among sixteen.
#[repr(C)]
struct Strings {
    digest: [u8; 32],
    signature: [u8; 64],
    certificate: [u8; 706],
}

type ProvedRead = unsafe extern "C" fn(*const u8, usize, *const usize, usize) -> u64;
type ProvedWrite = unsafe extern "C" fn(*mut u8, usize, *const Numbers, usize, &Strings) -> usize;

// the functions of exports.rt.txt: a slice is its pointer and its length
unsafe extern "C" {
    fn forms_read_messages(bytes: *const u8, len: usize, lens: *const usize, count: usize) -> u64;
    fn forms_read_records(bytes: *const u8, len: usize, lens: *const usize, count: usize) -> u64;
    fn forms_write_messages(
        out: *mut u8,
        len: usize,
        all: *const Numbers,
        count: usize,
        strings: &Strings,
    ) -> usize;
    fn forms_write_acks(
        out: *mut u8,
        len: usize,
        all: *const Numbers,
        count: usize,
        strings: &Strings,
    ) -> usize;
    fn forms_write_certified(
        out: *mut u8,
        len: usize,
        all: *const Numbers,
        count: usize,
        strings: &Strings,
    ) -> usize;
    fn forms_write_tips(
        out: *mut u8,
        len: usize,
        all: *const Numbers,
        count: usize,
        strings: &Strings,
    ) -> usize;
}

// SAFETY, here and below: the slices are lent for the call, which is proved to stay inside them.
fn call_read(read: ProvedRead, bytes: &[u8], lens: &[usize]) -> u64 {
    unsafe { read(bytes.as_ptr(), bytes.len(), lens.as_ptr(), lens.len()) }
}

fn call_write(write: ProvedWrite, out: &mut [u8], all: &[Numbers], strings: &Strings) -> usize {
    unsafe {
        write(
            out.as_mut_ptr(),
            out.len(),
            all.as_ptr(),
            all.len(),
            strings,
        )
    }
}

fn sum_of_part(part: Part<'_>) -> u64 {
    let last = part.bytes.last().copied().unwrap_or(0);
    part.at as u64 ^ (part.bytes.len() as u64) << 16 ^ u64::from(last) << 32
}

fn sum_of_ack(ack: Ack<'_>) -> u64 {
    let numbers = ack.height ^ ack.epoch ^ ack.signer;
    numbers ^ sum_of_part(ack.digest) ^ sum_of_part(ack.signature) << 8
}

fn sum_of_fault(fault: Fault) -> u64 {
    fault.at as u64 ^ (fault.field as u64) << 32
}

fn sum_of_message(read: Result<TipAck<'_>, Fault>) -> u64 {
    match read {
        Ok(message) => message.tip ^ sum_of_ack(message.ack),
        Err(fault) => sum_of_fault(fault),
    }
}

fn sum_of_record(read: Result<Activity<'_>, Fault>) -> u64 {
    match read {
        Ok(Activity::Ack(ack)) => sum_of_ack(ack),
        Ok(Activity::Certified(certified)) => {
            certified.height
                ^ sum_of_part(certified.digest)
                ^ sum_of_part(certified.certificate) << 8
        }
        Ok(Activity::Tip(tip)) => tip,
        Err(fault) => sum_of_fault(fault),
    }
}

fn read_all(bytes: &[u8], lens: &[usize], read: impl Fn(&[u8]) -> u64) -> u64 {
    let mut rest = bytes;
    let mut sum = 0u64;
    for len in lens {
        let Some((item, behind)) = rest.split_at_checked(*len) else {
            return 0;
        };
        sum = sum.rotate_left(1) ^ read(item);
        rest = behind;
    }
    sum
}

fn write_all(
    out: &mut [u8],
    all: &[Numbers],
    write: impl Fn(&mut [u8], &Numbers) -> Result<usize, Short>,
) -> usize {
    let mut at = 0;
    for numbers in all {
        let Some(rest) = out.get_mut(at..) else {
            return 0;
        };
        let Ok(len) = write(rest, numbers) else {
            return 0;
        };
        at += len;
    }
    at
}

fn ack_of<'a>(numbers: &Numbers, strings: &'a Strings) -> NewAck<'a> {
    NewAck {
        height: numbers.height,
        digest: &strings.digest,
        epoch: numbers.epoch,
        signer: numbers.signer,
        signature: &strings.signature,
    }
}

#[inline(never)]
fn read_messages(bytes: &[u8], lens: &[usize]) -> u64 {
    read_all(bytes, lens, |message| sum_of_message(read_message(message)))
}

#[inline(never)]
fn read_records(bytes: &[u8], lens: &[usize]) -> u64 {
    read_all(bytes, lens, |item| sum_of_record(read_activity(item)))
}

#[inline(never)]
fn write_messages(out: &mut [u8], all: &[Numbers], strings: &Strings) -> usize {
    write_all(out, all, |out, numbers| {
        let tip = numbers.tip;
        let ack = ack_of(numbers, strings);
        write_message(out, &NewTipAck { tip, ack })
    })
}

#[inline(never)]
fn write_acks(out: &mut [u8], all: &[Numbers], strings: &Strings) -> usize {
    write_all(out, all, |out, numbers| {
        write_activity(out, &NewActivity::Ack(ack_of(numbers, strings)))
    })
}

#[inline(never)]
fn write_certified(out: &mut [u8], all: &[Numbers], strings: &Strings) -> usize {
    write_all(out, all, |out, numbers| {
        let height = numbers.height;
        let certified = NewCertified {
            height,
            digest: &strings.digest,
            certificate: &strings.certificate,
        };
        write_activity(out, &NewActivity::Certified(certified))
    })
}

#[inline(never)]
fn write_tips(out: &mut [u8], all: &[Numbers], _: &Strings) -> usize {
    write_all(out, all, |out, numbers| {
        write_activity(out, &NewActivity::Tip(numbers.tip))
    })
}

/// A form: how it is written and read, by proved functions and by plain ones.
struct Form {
    name: &'static str,
    largest: usize,
    proved: (ProvedWrite, ProvedRead),
    plain: (
        fn(&mut [u8], &[Numbers], &Strings) -> usize,
        fn(&[u8], &[usize]) -> u64,
    ),
}

const FORMS: [Form; 4] = [
    Form {
        name: "messages",
        largest: 127,
        proved: (forms_write_messages, forms_read_messages),
        plain: (write_messages, read_messages),
    },
    Form {
        name: "acks",
        largest: 117,
        proved: (forms_write_acks, forms_read_records),
        plain: (write_acks, read_records),
    },
    Form {
        name: "certificates",
        largest: 1068,
        proved: (forms_write_certified, forms_read_records),
        plain: (write_certified, read_records),
    },
    Form {
        name: "tips",
        largest: 10,
        proved: (forms_write_tips, forms_read_records),
        plain: (write_tips, read_records),
    },
];

/// So many of a form are written and read, so often: 1,048,576.
const COUNT: usize = 4096;
const ROUNDS: usize = 256;
const TURNS: usize = 15;

fn print(what: &str, name: &str, best: [f64; 2]) {
    let [proved, plain] = best.map(|time| (COUNT * ROUNDS) as f64 / time / 1e6);
    let ratio = proved / plain;
    println!(
        "{what} {name:12} proved {proved:6.1}, plain {plain:6.1} million a second, ratio {ratio:.2}"
    );
}

fn rounds<T>(work: impl FnMut(usize) -> T) -> impl Iterator<Item = T> {
    (0..ROUNDS).map(work)
}

/// Writes a list of a form by each side, and reads what was written by each.
fn race_form(form: &Form, all: &[Numbers], strings: &Strings) {
    let (proved_write, proved_read) = form.proved;
    let (plain_write, plain_read) = form.plain;
    let mut one = vec![0; form.largest];
    let lens: Vec<_> = all
        .chunks(1)
        .map(|one_of| plain_write(&mut one, one_of, strings))
        .collect();
    let (best, written) = race(
        TURNS,
        &vec![0; lens.iter().sum()],
        [
            &|out| rounds(|_| call_write(proved_write, out, all, strings)).sum::<usize>(),
            &|out| rounds(|_| plain_write(out, all, strings)).sum(),
        ],
    );
    print("write", form.name, best);
    let (best, _) = race(
        TURNS,
        &written,
        [
            &|bytes| rounds(|_| call_read(proved_read, bytes, &lens)).fold(0, u64::wrapping_add),
            &|bytes| rounds(|_| plain_read(bytes, &lens)).fold(0, u64::wrapping_add),
        ],
    );
    print("read ", form.name, best);
    compare_changed(form, &written, &lens);
}

/// Sees that both sides still read the same when what was written is cut, longer, or a few of its bytes are others.
fn compare_changed(form: &Form, written: &[u8], lens: &[usize]) {
    let mut draw = Draw(0x2545_f491_4f6c_dd1d);
    let mut rest = written;
    for len in lens {
        let (item, behind) = rest.split_at(*len);
        for changes in [0, 1, 1, 1, 2, 3] {
            let mut bytes = item.to_vec();
            for _ in 0..changes {
                let at = draw.next() as usize % len;
                let any = draw.next() as u8;
                bytes[at] = [0, 1, 2, 0x7f, 0x80, 0x81, 0xff, any][draw.next() as usize % 8];
            }
            bytes.push(draw.next() as u8);
            for part in [draw.next() as usize % len, *len, *len + 1] {
                let proved = call_read(form.proved.1, &bytes, &[part]);
                let plain = form.plain.1(&bytes, &[part]);
                assert_eq!(
                    proved, plain,
                    "they read {part} bytes of {bytes:?} differently"
                );
            }
        }
        rest = behind;
    }
}

/// Pseudo-random numbers from a fixed seed.
struct Draw(u64);

impl Draw {
    fn next(&mut self) -> u64 {
        self.0 ^= self.0 << 13;
        self.0 ^= self.0 >> 7;
        self.0 ^= self.0 << 17;
        self.0
    }

    /// A number of at most so many bits, each count of bits as often as another.
    fn number(&mut self, bits: u64) -> u64 {
        match self.next() % (bits + 1) {
            0 => 0,
            bits => self.next() >> (64 - bits),
        }
    }
}

fn main() {
    let mut draw = Draw(0x9e37_79b9_7f4a_7c15);
    let strings = Strings {
        digest: std::array::from_fn(|_| draw.next() as u8),
        signature: std::array::from_fn(|_| draw.next() as u8),
        certificate: std::array::from_fn(|_| draw.next() as u8),
    };
    for bits in [7, 28, 62] {
        println!("numbers up to {bits} bits");
        let all: Vec<_> = (0..COUNT)
            .map(|_| Numbers {
                tip: draw.number(bits),
                height: draw.number(bits),
                epoch: draw.number(bits),
                signer: draw.next() % 16,
            })
            .collect();
        for form in &FORMS {
            race_form(form, &all, &strings);
        }
    }
}
