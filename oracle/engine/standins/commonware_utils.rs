//! Stand-in for `commonware_utils`: ordered sets, a priority set, a pool of futures, one-shot
//! channels and small wrappers.

use std::collections::{BTreeMap, BTreeSet};
use std::fmt::{self, Display};
use std::time::Duration;

/// The fault model n >= 3f + 1.
pub struct N3f1;

/// A signer's position in its set.
#[derive(Copy, Clone, Debug, PartialEq, Eq, PartialOrd, Ord, Hash)]
pub struct Participant(pub u32);

impl Display for Participant {
    fn fmt(&self, f: &mut fmt::Formatter<'_>) -> fmt::Result {
        write!(f, "{}", self.0)
    }
}

pub trait Widen<T> {
    fn widen(self) -> T;
}

impl Widen<usize> for u32 {
    fn widen(self) -> usize {
        self as usize
    }
}

/// A duration above zero.
#[derive(Copy, Clone, Debug)]
pub struct NonZeroDuration(Duration);

impl NonZeroDuration {
    pub fn new(duration: Duration) -> Option<Self> {
        (!duration.is_zero()).then_some(Self(duration))
    }
}

impl From<NonZeroDuration> for Duration {
    fn from(duration: NonZeroDuration) -> Duration {
        duration.0
    }
}

pub fn union(one: &[u8], other: &[u8]) -> Vec<u8> {
    [one, other].concat()
}

/// Items with a priority each; the lowest priority comes first, and of equal ones the lowest item.
pub struct PrioritySet<I, P> {
    order: BTreeSet<(P, I)>,
    priorities: BTreeMap<I, P>,
}

impl<I: Ord + Copy, P: Ord + Copy> PrioritySet<I, P> {
    pub const fn new() -> Self {
        Self {
            order: BTreeSet::new(),
            priorities: BTreeMap::new(),
        }
    }

    pub fn put(&mut self, item: I, priority: P) {
        if let Some(old) = self.priorities.insert(item, priority) {
            self.order.remove(&(old, item));
        }
        self.order.insert((priority, item));
    }

    pub fn contains(&self, item: &I) -> bool {
        self.priorities.contains_key(item)
    }

    pub fn peek(&self) -> Option<(&I, &P)> {
        self.order.first().map(|(priority, item)| (item, priority))
    }

    pub fn pop(&mut self) -> Option<(I, P)> {
        let (priority, item) = self.order.pop_first()?;
        self.priorities.remove(&item);
        Some((item, priority))
    }

    /// For the probe: all, lowest first.
    pub fn iter(&self) -> impl Iterator<Item = &(P, I)> {
        self.order.iter()
    }
}

pub mod ordered {
    use super::Participant;

    /// A sorted set of distinct keys.
    #[derive(Clone, Debug, PartialEq, Eq)]
    pub struct Set<K>(Vec<K>);

    impl<K: Ord> Set<K> {
        /// `None` where a key stands twice.
        pub fn new(mut keys: Vec<K>) -> Option<Self> {
            keys.sort();
            let distinct = keys.windows(2).all(|pair| pair[0] != pair[1]);
            distinct.then_some(Self(keys))
        }

        pub fn len(&self) -> usize {
            self.0.len()
        }

        pub fn is_empty(&self) -> bool {
            self.0.is_empty()
        }

        pub fn position(&self, key: &K) -> Option<usize> {
            self.0.binary_search(key).ok()
        }

        pub fn index(&self, key: &K) -> Option<Participant> {
            self.position(key).map(|at| Participant(at as u32))
        }
    }

    impl<'a, K> IntoIterator for &'a Set<K> {
        type Item = &'a K;
        type IntoIter = std::slice::Iter<'a, K>;

        fn into_iter(self) -> Self::IntoIter {
            self.0.iter()
        }
    }

    /// The fault bound and the quorum of a set.
    pub trait Quorum {
        fn max_faults<M>(&self) -> u32;
        fn quorum<M>(&self) -> u32;
    }

    impl<K: Ord> Quorum for Set<K> {
        fn max_faults<M>(&self) -> u32 {
            ((self.len() - 1) / 3) as u32
        }

        fn quorum<M>(&self) -> u32 {
            self.len() as u32 - self.max_faults::<M>()
        }
    }
}

pub mod iter {
    /// A first item, and an iterator over the others.
    pub struct NonEmpty<I: Iterator>(I::Item, I);

    impl<I: Iterator> NonEmpty<I> {
        pub fn new(first: I::Item, rest: I) -> Self {
            Self(first, rest)
        }

        pub fn from_all(all: impl IntoIterator<IntoIter = I, Item = I::Item>) -> Option<Self> {
            let mut rest = all.into_iter();
            Some(Self(rest.next()?, rest))
        }

        pub fn into_parts(self) -> (I::Item, I) {
            (self.0, self.1)
        }
    }
}

#[macro_export]
macro_rules! non_empty {
    (@$all:expr) => {
        $crate::iter::NonEmpty::from_all($all).expect("not empty")
    };
}

pub mod sequence {
    pub struct U64(pub u64);

    impl From<u64> for U64 {
        fn from(value: u64) -> Self {
            Self(value)
        }
    }
}

pub mod channel {
    pub mod oneshot {
        use std::cell::RefCell;
        use std::future::Future;
        use std::pin::Pin;
        use std::rc::Rc;
        use std::task::{Context, Poll};

        pub mod error {
            #[derive(Clone, Debug, PartialEq, Eq)]
            pub struct RecvError;
        }

        enum Slot<T> {
            Open,
            Sent(T),
            Dropped,
        }

        pub struct Sender<T>(Rc<RefCell<Slot<T>>>);
        pub struct Receiver<T>(Rc<RefCell<Slot<T>>>);

        pub fn channel<T>() -> (Sender<T>, Receiver<T>) {
            let slot = Rc::new(RefCell::new(Slot::Open));
            (Sender(slot.clone()), Receiver(slot))
        }

        impl<T> Sender<T> {
            pub fn send(self, value: T) {
                *self.0.borrow_mut() = Slot::Sent(value);
            }
        }

        impl<T> Drop for Sender<T> {
            fn drop(&mut self) {
                let mut slot = self.0.borrow_mut();
                if matches!(*slot, Slot::Open) {
                    *slot = Slot::Dropped;
                }
            }
        }

        impl<T> Future for Receiver<T> {
            type Output = Result<T, error::RecvError>;

            fn poll(self: Pin<&mut Self>, _: &mut Context<'_>) -> Poll<Self::Output> {
                match std::mem::replace(&mut *self.0.borrow_mut(), Slot::Open) {
                    Slot::Open => Poll::Pending,
                    Slot::Sent(value) => Poll::Ready(Ok(value)),
                    Slot::Dropped => Poll::Ready(Err(error::RecvError)),
                }
            }
        }
    }
}

pub mod futures {
    use std::future::{Future, poll_fn};
    use std::pin::Pin;
    use std::task::Poll;

    /// Futures of which any one that is done is answered.
    pub struct Pool<'a, T>(Vec<Pin<Box<dyn Future<Output = T> + 'a>>>);

    impl<T> Default for Pool<'_, T> {
        fn default() -> Self {
            Self(Vec::new())
        }
    }

    impl<'a, T> Pool<'a, T> {
        pub fn push(&mut self, future: impl Future<Output = T> + 'a) {
            self.0.push(Box::pin(future));
        }

        pub fn next_completed(&mut self) -> impl Future<Output = T> {
            poll_fn(|cx| {
                for at in 0..self.0.len() {
                    if let Poll::Ready(value) = self.0[at].as_mut().poll(cx) {
                        drop(self.0.remove(at));
                        return Poll::Ready(value);
                    }
                }
                Poll::Pending
            })
        }
    }

    /// Takes the value out of its place, and puts back what the call gives back.
    pub async fn rebind<T, E, F>(place: &mut Option<T>, call: impl FnOnce(T) -> F) -> Result<(), E>
    where
        F: Future<Output = Result<T, E>>,
    {
        let value = place.take().expect("a value");
        *place = Some(call(value).await?);
        Ok(())
    }
}
