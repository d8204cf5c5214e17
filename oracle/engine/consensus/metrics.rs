//! Stand-in for the engine's metrics: the fields that it names.

use commonware_runtime::telemetry::metrics::{Counter, Level, histogram::Histogram, status};

pub struct Metrics {
    pub tip: Level,
    pub digest: status::Counter,
    pub acks: status::Counter,
    pub certificates: Counter,
    pub digest_duration: Histogram,
}

impl Metrics {
    pub fn init<E>(_: &E) -> Self {
        Self {
            tip: Level,
            digest: status::Counter,
            acks: status::Counter,
            certificates: Counter,
            digest_duration: Histogram,
        }
    }
}
