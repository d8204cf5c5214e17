//! The published engine under the driver: opened, fed one event, polled until it is idle.

use crate::names::{death, published, refused};
use crate::words::{hex_or_dash, short};
use commonware_parallel::Sequential;
use commonware_runtime::{Clock, Handle, Metrics, Spawner, Storage, buffer::paged::CacheRef};
use commonware_utils::{NonZeroDuration, channel::oneshot};
use consensus::{
    Automaton, Monitor, Reporter, Subscription,
    aggregation::{
        Config, Engine,
        scheme::{Digest32, Key, Kind, Schemes, Trial},
        types::Activity,
    },
    types::{Epoch, EpochDelta, Height, HeightDelta},
};
use std::cell::RefCell;
use std::collections::BTreeMap;
use std::num::{NonZeroU64, NonZeroUsize};
use std::panic::{AssertUnwindSafe, catch_unwind};
use std::rc::Rc;
use std::task::{Context, Poll, Waker};
use std::time::Duration;

/// The heights whose digest the engine has asked for, with the way to answer.
type Requests = BTreeMap<u64, oneshot::Sender<Digest32>>;

#[derive(Clone)]
struct Runtime;

impl Clock for Runtime {}
impl Spawner for Runtime {}
impl Storage for Runtime {}
impl Metrics for Runtime {}
impl rand_core::CryptoRng for Runtime {}

/// The open requests, and all heights in the order in which they were asked for.
#[derive(Clone, Default)]
struct Application(Rc<RefCell<Requests>>, Rc<RefCell<Vec<u64>>>);

impl Automaton for Application {
    type Context = Height;
    type Digest = Digest32;

    async fn propose(&mut self, height: Height) -> oneshot::Receiver<Digest32> {
        let (sender, receiver) = oneshot::channel();
        self.1.borrow_mut().push(height.get());
        let twice = self.0.borrow_mut().insert(height.get(), sender);
        assert!(twice.is_none(), "asked twice for {height}");
        receiver
    }
}

struct Told;

impl Reporter for Told {
    type Activity = Activity<Trial, Digest32>;

    fn report(&mut self, activity: Self::Activity) {
        world::output("tell", 1, &commonware_codec::Encode::encode(&activity));
    }
}

struct Network;

impl commonware_p2p::Sender for Network {
    type PublicKey = Key;

    fn send(&mut self, bytes: &[u8]) {
        world::output("send", 2, bytes);
    }
}

impl commonware_p2p::Receiver for Network {
    type PublicKey = Key;

    fn take(&mut self) -> Option<(Key, Vec<u8>)> {
        let (key, bytes) = world::with(|w| w.message.take())?;
        Some((Key::padded(&key).expect("a key"), bytes))
    }
}

impl commonware_p2p::Blocker for Network {
    type PublicKey = Key;

    fn block(&mut self, key: Key) {
        world::output("block", 3, &key.0);
    }
}

struct Epochs(u64);

impl Monitor for Epochs {
    type Index = Epoch;

    async fn subscribe(&mut self) -> (Epoch, Subscription) {
        (Epoch::new(self.0), Subscription)
    }
}

#[derive(Default)]
enum Phase {
    #[default]
    Shut,
    Running(Handle<()>),
    /// The published code has died.
    Halted,
}

/// How a poll ended.
enum Went {
    Idle,
    Ended,
    /// The power went, or the published code died: the answer is this.
    Stopped(String),
}

#[derive(Default)]
pub struct Driver {
    pub kind: Kind,
    pub schemes: Schemes,
    /// W, A, S, lo, hi, timeout.
    pub settings: [u64; 6],
    phase: Phase,
    asked: Application,
    /// Requests that were taken and not yet answered.
    held: Requests,
}

impl Driver {
    pub fn is_shut(&self) -> bool {
        matches!(self.phase, Phase::Shut)
    }

    pub fn power_off(&mut self) {
        self.phase = Phase::Shut;
        self.asked = Application::default();
        self.held.clear();
    }

    /// Polls the engine until it is idle, ends, dies or loses its power.
    fn run(&mut self) -> Went {
        let Phase::Running(handle) = &mut self.phase else {
            unreachable!("the engine runs");
        };
        world::with(|w| {
            w.operations = 0;
            w.said.clear();
            w.guard = None;
        });
        let mut context = Context::from_waker(Waker::noop());
        let polled = catch_unwind(AssertUnwindSafe(|| handle.0.as_mut().poll(&mut context)));
        if world::with(|w| std::mem::take(&mut w.off)) {
            self.power_off();
            return Went::Stopped("cut".to_string());
        }
        match polled {
            Ok(Poll::Pending) => Went::Idle,
            Ok(Poll::Ready(())) => Went::Ended,
            Err(panic) => {
                self.phase = Phase::Halted;
                let text = panic.downcast_ref::<String>().map(String::as_str);
                let text = text
                    .or(panic.downcast_ref::<&str>().copied())
                    .unwrap_or("?");
                Went::Stopped(death(text))
            }
        }
    }

    /// Polls after an event; idle is `ok`.
    fn carry_out(&mut self) -> String {
        match self.run() {
            Went::Stopped(answer) => answer,
            Went::Idle | Went::Ended => "ok".to_string(),
        }
    }

    /// The engine's private state, copied while it is idle.
    fn probe(&mut self) -> world::State {
        world::with(|w| w.probe = true);
        let went = self.run();
        assert!(matches!(went, Went::Idle), "a probe changes nothing");
        world::with(|w| w.state.take()).expect("the probe has been asked")
    }

    pub fn open(&mut self, epoch: u64, clock: u64) -> String {
        if !self.is_shut() {
            return refused(2);
        }
        let [window, timeout, per_section, lo, hi, rebroadcast] = self.settings;
        self.asked = Application::default();
        let config = Config {
            monitor: Epochs(epoch),
            provider: self.schemes.clone(),
            automaton: self.asked.clone(),
            reporter: Told,
            blocker: Network,
            priority_acks: false,
            rebroadcast_timeout: NonZeroDuration::new(Duration::from_millis(rebroadcast))
                .expect("a timeout above zero"),
            epoch_bounds: (EpochDelta::new(lo), EpochDelta::new(hi)),
            window: NonZeroU64::new(window).expect("a window above zero"),
            activity_timeout: HeightDelta::new(timeout),
            journal_partition: String::new(),
            journal_write_buffer: NonZeroUsize::MIN,
            journal_replay_buffer: NonZeroUsize::MIN,
            journal_heights_per_section: NonZeroU64::new(per_section).expect("heights"),
            journal_compression: None,
            journal_page_cache: CacheRef,
            strategy: Sequential,
        };
        world::with(|w| w.clock = clock);
        let engine = Engine::new(Runtime, config);
        self.phase = Phase::Running(engine.start((Network, Network)));
        self.carry_out()
    }

    fn runs(&self) -> bool {
        matches!(self.phase, Phase::Running(_))
    }

    pub fn epoch(&mut self, epoch: u64, clock: u64) -> String {
        if !self.runs() {
            return refused(1);
        }
        world::with(|w| (w.epoch, w.clock) = (Some(epoch), clock));
        self.carry_out()
    }

    pub fn message(&mut self, key: Key, bytes: Vec<u8>) -> String {
        if !self.runs() {
            return refused(1);
        }
        world::with(|w| w.message = Some((key.0.to_vec(), bytes)));
        let answer = self.carry_out();
        if answer != "ok" {
            return answer;
        }
        let (said, guard) = world::with(|w| (w.said.first().cloned(), w.guard));
        match said {
            Some((what, _)) if what == "ack decode failed" => refused(12),
            Some((_, error)) => published(&error),
            None if guard == Some("failure") => refused(22),
            None => answer,
        }
    }

    /// The lowest height that is asked for, not taken yet and not dropped.
    pub fn take(&mut self) -> String {
        if !self.runs() {
            return refused(1);
        }
        let Some(&height) = self.wanted().first() else {
            return refused(23);
        };
        let sender = self
            .asked
            .0
            .borrow_mut()
            .remove(&height)
            .expect("asked for");
        self.held.insert(height, sender);
        world::with(|w| w.acts.push(format!("slip {height}")));
        "ok".to_string()
    }

    fn wanted(&mut self) -> Vec<u64> {
        let state = self.probe();
        let asked = self.asked.0.borrow();
        let pending = state.pending.iter().map(|(height, _)| *height);
        pending
            .filter(|height| asked.contains_key(height))
            .collect()
    }

    /// A request that the script answers, or why it can not.
    fn hand_back(&mut self, height: u64) -> Result<oneshot::Sender<Digest32>, String> {
        if self.held.is_empty() {
            return Err(refused(24));
        }
        let sender = self
            .held
            .remove(&height)
            .ok_or("refused: no slip for that height".to_string())?;
        if self.runs() {
            Ok(sender)
        } else {
            Err(refused(1))
        }
    }

    pub fn digest(&mut self, height: u64, digest: Digest32, clock: u64) -> String {
        match self.hand_back(height) {
            Err(answer) => answer,
            Ok(sender) => {
                world::with(|w| w.clock = clock);
                sender.send(digest);
                self.carry_out()
            }
        }
    }

    pub fn cancel(&mut self, height: u64) -> String {
        match self.hand_back(height) {
            Err(answer) => answer,
            Ok(sender) => {
                drop(sender);
                self.carry_out()
            }
        }
    }

    /// Lets the lowest deadline fire. Deadlines of dropped heights, which the published code keeps
    /// and then passes over, fire before it unseen.
    pub fn due(&mut self, clock: u64) -> String {
        if !self.runs() {
            return refused(1);
        }
        loop {
            let state = self.probe();
            let Some(&(deadline, height)) = state.deadlines.first() else {
                return refused(25);
            };
            if deadline > clock {
                return refused(25);
            }
            world::with(|w| (w.clock, w.may_fire) = (clock, true));
            let answer = self.carry_out();
            let idle = !state.pending.iter().any(|(pending, _)| *pending == height);
            if !idle {
                return answer;
            }
        }
    }

    pub fn close(&mut self) -> String {
        match self.phase {
            Phase::Shut => return refused(1),
            // The published code is gone; what a closing makes durable is made so here.
            Phase::Halted => {
                world::with(|w| w.operations = 0);
                if !world::operation(None, 0) {
                    world::with(|w| w.off = false);
                    self.power_off();
                    return "cut".to_string();
                }
                world::with(|w| {
                    w.disk.sync_all();
                    w.acts.push("sync all".to_string());
                });
            }
            Phase::Running(_) => {
                world::with(|w| w.stop = true);
                let went = self.run();
                world::with(|w| w.stop = false);
                if let Went::Stopped(answer) = went {
                    return answer;
                }
            }
        }
        self.power_off();
        "ok".to_string()
    }

    /// What the published code keeps and the state leaves out: every deadline, also of dropped
    /// heights, and every height asked for since the opening, in that order.
    pub fn kept(&mut self) {
        let mut lines = Vec::new();
        if self.runs() {
            let deadlines = self.probe().deadlines;
            lines.extend(
                deadlines
                    .iter()
                    .map(|(at, height)| format!("deadline {at} {height}")),
            );
        }
        lines.push(list("asked", self.asked.1.borrow().iter()));
        world::with(|w| w.acts.extend(lines));
    }

    pub fn state(&mut self) {
        let mut lines = Vec::new();
        match self.phase {
            Phase::Shut => lines.push("state shut".to_string()),
            Phase::Halted => {
                lines.push("state halted".to_string());
                lines.push(list("out", self.held.keys()));
                lines.push("lodged".to_string());
            }
            Phase::Running(_) => {
                let state = self.probe();
                lines = shown(&state);
                lines.push(list("wanted", self.wanted()));
                lines.push(list("out", self.held.keys()));
                lines.push("lodged".to_string());
            }
        }
        world::with(|w| w.acts.extend(lines));
    }
}

fn list(word: &str, items: impl IntoIterator<Item = impl ToString>) -> String {
    let items = items.into_iter().map(|item| item.to_string());
    std::iter::once(word.to_string())
        .chain(items)
        .collect::<Vec<_>>()
        .join(" ")
}

fn shown(state: &world::State) -> Vec<String> {
    let count = |(height, count): &(u64, usize)| format!("{height}*{count}");
    let mut lines = vec![
        format!(
            "state running epoch {} tip {} safe {}",
            state.epoch, state.tip, state.safe_tip
        ),
        list("seats", state.seats.iter().map(|(_, tip)| tip)),
        list("lo", state.lo.iter().map(count)),
        list("hi", state.hi.iter().map(count)),
    ];
    for (height, digest) in &state.pending {
        lines.push(match digest {
            None => format!("pending {height} unverified"),
            Some(digest) => format!("pending {height} verified {}", short(digest)),
        });
    }
    for (height, epoch, signer, digest, signature) in &state.acks {
        let (digest, signature) = (short(digest), short(signature));
        lines.push(format!(
            "ack {height} {epoch} {signer} {digest} {signature}"
        ));
    }
    for (height, digest, certificate) in &state.certified {
        let certificate = hex_or_dash(certificate);
        lines.push(format!(
            "certified {height} {} {certificate}",
            short(digest)
        ));
    }
    for (deadline, height) in &state.deadlines {
        if state.pending.iter().any(|(pending, _)| pending == height) {
            lines.push(format!("deadline {deadline} {height}"));
        }
    }
    lines
}
