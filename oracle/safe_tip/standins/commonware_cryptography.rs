//! Stand-in for `commonware_cryptography`: the part that safe_tip.rs names.

/// What a key must offer: the published trait asks for more, safe_tip.rs uses no more.
pub trait PublicKey: Clone + Ord + std::hash::Hash + std::fmt::Debug {}
