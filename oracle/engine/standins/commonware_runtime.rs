//! Stand-in for `commonware_runtime`: a clock that the driver sets, a sleep that ends only when the
//! driver lets it, and metrics that count nothing.

use std::future::{Future, poll_fn};
use std::pin::Pin;
use std::task::Poll;
use std::time::{Duration, SystemTime, UNIX_EPOCH};

pub trait Clock {
    fn current(&self) -> SystemTime {
        UNIX_EPOCH + Duration::from_millis(world::with(|w| w.clock))
    }

    /// Ends once the deadline is reached and the driver lets one deadline fire.
    fn sleep_until(&self, deadline: SystemTime) -> impl Future<Output = ()> + Unpin + use<Self> {
        poll_fn(move |_| {
            let at = milliseconds(deadline);
            let fires = world::with(|w| {
                let fires = w.may_fire && at <= w.clock;
                w.may_fire &= !fires;
                fires
            });
            if fires {
                Poll::Ready(())
            } else {
                Poll::Pending
            }
        })
    }
}

pub fn milliseconds(time: SystemTime) -> u64 {
    time.duration_since(UNIX_EPOCH).expect("a time").as_millis() as u64
}

pub trait Spawner: 'static {
    /// Ends once the driver stops the engine.
    fn stopped(&self) -> impl Future<Output = ()> + Unpin + use<Self> {
        poll_fn(|_| {
            if world::with(|w| w.stop) {
                Poll::Ready(())
            } else {
                Poll::Pending
            }
        })
    }
}

pub trait Storage {}

pub trait Metrics: Sized + Clone {
    fn child(&self, _label: &str) -> Self {
        self.clone()
    }
}

pub struct ContextCell<E>(E);

impl<E> ContextCell<E> {
    pub fn new(context: E) -> Self {
        Self(context)
    }

    pub fn as_ref(&self) -> &E {
        &self.0
    }

    pub fn as_mut(&mut self) -> &mut E {
        &mut self.0
    }
}

impl<E> std::ops::Deref for ContextCell<E> {
    type Target = E;

    fn deref(&self) -> &E {
        &self.0
    }
}

/// The engine as a future that the driver polls.
pub struct Handle<T>(pub Pin<Box<dyn Future<Output = T>>>);

#[macro_export]
macro_rules! spawn_cell {
    ($cell:expr, $future:expr) => {
        $crate::Handle(Box::pin($future))
    };
}

pub struct ReadOptions;

impl ReadOptions {
    pub const DONT_CACHE: Self = Self;
}

pub mod buffer {
    pub mod paged {
        #[derive(Clone)]
        pub struct CacheRef;
    }
}

pub mod telemetry {
    pub mod traces {
        pub trait TracedExt {
            fn traced(self) -> i64;
        }

        impl TracedExt for u64 {
            fn traced(self) -> i64 {
                self as i64
            }
        }
    }

    pub mod metrics {
        pub trait GaugeExt {
            fn try_set(&self, value: u64) -> Result<i64, ()>;
        }

        pub struct Level;

        impl GaugeExt for Level {
            fn try_set(&self, _: u64) -> Result<i64, ()> {
                Ok(0)
            }
        }

        pub struct Counter;

        impl Counter {
            pub fn inc(&self) {}
        }

        pub mod histogram {
            pub struct Histogram;

            pub struct Timer;

            impl Histogram {
                pub fn timer<E>(&self, _: &E) -> Timer {
                    Timer
                }
            }

            impl Timer {
                pub fn observe<E>(self, _: &E) {}
            }
        }

        pub mod status {
            #[derive(Copy, Clone, Debug, PartialEq, Eq)]
            pub enum Status {
                Success,
                Failure,
                Invalid,
                Dropped,
            }

            pub struct Counter;

            /// Notes the status that it holds when it goes.
            pub struct Guard(Status);

            impl Counter {
                pub fn inc(&self, _: Status) {}

                pub fn guard(&self, status: Status) -> Guard {
                    Guard(status)
                }
            }

            impl Guard {
                pub fn set(&mut self, status: Status) {
                    self.0 = status;
                }
            }

            impl Drop for Guard {
                fn drop(&mut self) {
                    let word = match self.0 {
                        Status::Success => "success",
                        Status::Failure => "failure",
                        Status::Invalid => "invalid",
                        Status::Dropped => "dropped",
                    };
                    world::with(|w| w.guard = Some(word));
                }
            }
        }
    }
}
