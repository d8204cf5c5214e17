//! What the stand-ins share with the driver: the journal's value, the clock, the one event
//! that is being fed, the acts seen, and the state that the probe has copied.

use std::cell::RefCell;
use std::collections::BTreeMap;

/// The longest record that a journal takes.
pub const RECORD_MAX: usize = 1_068;

/// The records of one section: the durable ones, and after them the loose ones.
#[derive(Clone, Debug, Default)]
pub struct Section {
    pub durable: Vec<Vec<u8>>,
    pub loose: Vec<Vec<u8>>,
}

impl Section {
    pub fn records(&self) -> impl Iterator<Item = &Vec<u8>> {
        self.durable.iter().chain(&self.loose)
    }
}

/// What else a journal's room depends on than a record's length.
#[derive(Clone, Copy, Debug, Default)]
pub enum Room {
    #[default]
    Plain,
    /// This many areas of 4,096 bytes, at most one to a section.
    Byte(usize),
    /// This many slots, one for each record.
    Slot(usize),
}

/// Why an append is refused.
#[derive(Clone, Copy, Debug, PartialEq, Eq)]
pub enum Refused {
    Pruned,
    Full,
}

/// A journal's value: a bound, and the sections in ascending order.
#[derive(Clone, Debug, Default)]
pub struct Disk {
    pub bound: u64,
    pub sections: BTreeMap<u64, Section>,
    pub room: Room,
}

impl Disk {
    fn fits(&self, section: u64, len: usize) -> bool {
        match self.room {
            Room::Plain => true,
            Room::Byte(areas) => match self.sections.get(&section) {
                Some(held) => {
                    let used: usize = held.records().map(|r| 3 + r.len()).sum();
                    9 + used + 3 + len < 4_096
                }
                None => self.sections.len() < areas,
            },
            Room::Slot(slots) => {
                self.sections
                    .values()
                    .map(|s| s.records().count())
                    .sum::<usize>()
                    < slots
            }
        }
    }

    pub fn append(&mut self, section: u64, record: Vec<u8>) -> Result<(), Refused> {
        if section < self.bound {
            return Err(Refused::Pruned);
        }
        if record.len() > RECORD_MAX || !self.fits(section, record.len()) {
            return Err(Refused::Full);
        }
        self.sections.entry(section).or_default().loose.push(record);
        Ok(())
    }

    pub fn sync(&mut self, section: u64) {
        if let Some(held) = self.sections.get_mut(&section) {
            held.durable.append(&mut held.loose);
        }
    }

    pub fn sync_all(&mut self) {
        for held in self.sections.values_mut() {
            held.durable.append(&mut held.loose);
        }
    }

    pub fn prune(&mut self, section: u64) {
        self.bound = self.bound.max(section);
        self.sections = self.sections.split_off(&self.bound);
    }

    /// What a cut leaves. `pruning` is the bound of a prune that was under way (or 0). `keep` has
    /// one truth value for each record that may be lost, in reading order; a section that is not
    /// being pruned keeps its first few only.
    pub fn cut(&mut self, pruning: u64, mut keep: impl FnMut(bool) -> bool) {
        for (&section, held) in self.sections.iter_mut() {
            if section < pruning {
                let all = std::mem::take(held);
                held.durable = all.records().filter(|_| keep(true)).cloned().collect();
            } else {
                let loose = std::mem::take(&mut held.loose);
                let mut whole = true;
                for record in loose {
                    whole &= keep(false);
                    if whole {
                        held.durable.push(record);
                    }
                }
            }
        }
        self.sections
            .retain(|_, held| held.records().next().is_some());
        self.bound = 0;
    }
}

/// A cut that waits for a journal operation of the next event.
#[derive(Clone, Debug)]
pub enum Armed {
    /// Before anything of the operation is stored.
    Before,
    /// After its last store.
    Done,
    /// With one truth value for each record that may be lost; `false` where it ends early.
    Mask(Vec<bool>),
}

/// The engine's private state, copied out by the probe.
#[derive(Clone, Debug, Default)]
pub struct State {
    pub epoch: u64,
    pub tip: u64,
    pub safe_tip: u64,
    /// Key and recorded tip.
    pub seats: Vec<(Vec<u8>, u64)>,
    pub lo: Vec<(u64, usize)>,
    pub hi: Vec<(u64, usize)>,
    /// Height and verified digest.
    pub pending: Vec<(u64, Option<Vec<u8>>)>,
    /// Height, epoch, signer, digest, signature.
    pub acks: Vec<(u64, u64, u64, Vec<u8>, Vec<u8>)>,
    /// Height, digest, certificate.
    pub certified: Vec<(u64, Vec<u8>, Vec<u8>)>,
    /// Deadline in milliseconds, and height.
    pub deadlines: Vec<(u64, u64)>,
}

#[derive(Default)]
pub struct World {
    pub disk: Disk,
    pub clock: u64,
    // The event that is being fed; at most one stands.
    pub epoch: Option<u64>,
    pub message: Option<(Vec<u8>, Vec<u8>)>,
    pub may_fire: bool,
    pub stop: bool,
    pub probe: bool,
    // What came of it.
    pub acts: Vec<String>,
    pub written: usize,
    pub operations: usize,
    pub armed: Option<(usize, Armed)>,
    pub off: bool,
    pub said: Vec<(String, String)>,
    pub guard: Option<&'static str>,
    pub state: Option<State>,
}

thread_local! {
    static WORLD: RefCell<World> = RefCell::new(World::default());
}

pub fn with<T>(f: impl FnOnce(&mut World) -> T) -> T {
    WORLD.with(|world| f(&mut world.borrow_mut()))
}

pub fn hex(bytes: &[u8]) -> String {
    const DIGITS: &[u8; 16] = b"0123456789abcdef";
    let digit = |d: u8| DIGITS[d as usize] as char;
    bytes
        .iter()
        .flat_map(|b| [digit(b >> 4), digit(b & 15)])
        .collect()
}

thread_local! {
    static COUNTS: RefCell<BTreeMap<&'static str, u64>> = const { RefCell::new(BTreeMap::new()) };
}

/// Counts a log of the published code, which stands for the branch that it is in.
pub fn count(log: &'static str) {
    COUNTS.with(|counts| *counts.borrow_mut().entry(log).or_default() += 1);
}

pub fn counts() -> BTreeMap<&'static str, u64> {
    COUNTS.with(|counts| counts.borrow().clone())
}

/// What the published code says in its logs where the driver has to know it.
pub fn said(what: &str, error: String) {
    with(|world| world.said.push((what.to_string(), error)));
}

/// An output: told activity (1), TipAck to all (2), key to block (3).
pub fn output(word: &str, kind: u8, payload: &[u8]) {
    let mut bytes = vec![kind, (payload.len() >> 8) as u8, payload.len() as u8];
    bytes.extend_from_slice(payload);
    with(|world| {
        world.written += bytes.len();
        world.acts.push(format!("{word} {}", hex(&bytes)));
    });
}

/// A journal operation: true if it goes on, false if the power goes at it.
/// `append` is the record that is being appended, `pruning` the bound of a prune.
pub fn operation(append: Option<(u64, &[u8])>, pruning: u64) -> bool {
    with(|world| {
        world.operations += 1;
        let Some((at, armed)) = world.armed.clone() else {
            return true;
        };
        if world.operations != at {
            return true;
        }
        world.armed = None;
        world.off = true;
        if let (Some((section, record)), false) = (append, matches!(armed, Armed::Before)) {
            let _ = world.disk.append(section, record.to_vec());
        }
        match armed {
            Armed::Before => world.disk.cut(pruning, |_| true),
            Armed::Done => world.disk.cut(pruning, |pruned| !pruned),
            Armed::Mask(mask) => {
                let mut mask = mask.into_iter();
                world.disk.cut(pruning, |_| mask.next().unwrap_or(false));
            }
        }
        false
    })
}

/// A future that never ends: where the power is gone, nothing comes after.
pub async fn nothing_after() -> ! {
    std::future::pending::<()>().await;
    unreachable!()
}
