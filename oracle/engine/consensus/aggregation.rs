//! The module around the published files of the engine.

mod config;
mod engine;
mod metrics;
pub mod scheme;
pub mod types;

pub use config::Config;
pub use engine::Engine;

/// The published file as it stands, and beside it what lets the probe read its private fields.
pub mod safe_tip {
    include!("safe_tip.rs");

    type Counts = Vec<(u64, usize)>;

    impl<P: PublicKey> SafeTip<P> {
        /// Seats by key, `lo` and `hi`.
        pub fn probe(&self) -> (Vec<(Vec<u8>, u64)>, Counts, Counts) {
            let seat = |(key, tip): (&P, &Height)| (key.as_ref().to_vec(), tip.get());
            let mut seats: Vec<_> = self.tips.iter().map(seat).collect();
            seats.sort();
            let counts = |map: &BTreeMap<Height, usize>| {
                map.iter()
                    .map(|(height, count)| (height.get(), *count))
                    .collect()
            };
            (seats, counts(&self.lo), counts(&self.hi))
        }
    }
}
