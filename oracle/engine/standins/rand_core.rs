//! Stand-in for `rand_core`: our schemes use no randomness.

pub trait CryptoRng {}
