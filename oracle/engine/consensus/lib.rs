//! The crate root around the published files: the traits that they name from their own crate.
#![allow(unused)]

pub mod aggregation;
pub mod types;

use commonware_cryptography::Digest;
use commonware_utils::channel::oneshot;
use std::future::{Future, poll_fn};
use std::task::Poll;

pub trait Epochable {
    fn epoch(&self) -> types::Epoch;
}

pub trait Heightable {
    fn height(&self) -> types::Height;
}

pub trait Viewable {
    fn view(&self) -> types::View;
}

/// The application that is asked for digests.
pub trait Automaton: Clone + 'static {
    type Context;
    type Digest: Digest;

    fn propose(
        &mut self,
        context: Self::Context,
    ) -> impl Future<Output = oneshot::Receiver<Self::Digest>>;
}

/// Is told activities.
pub trait Reporter: 'static {
    type Activity;

    fn report(&mut self, activity: Self::Activity);
}

/// Knows the current epoch.
pub trait Monitor: 'static {
    type Index;

    fn subscribe(&mut self) -> impl Future<Output = (Self::Index, Subscription)>;
}

/// Gives the epoch that the driver feeds.
pub struct Subscription;

impl Subscription {
    pub fn recv(&mut self) -> impl Future<Output = Option<types::Epoch>> {
        poll_fn(|_| match world::with(|w| w.epoch.take()) {
            Some(epoch) => Poll::Ready(Some(types::Epoch::new(epoch))),
            None => Poll::Pending,
        })
    }
}
