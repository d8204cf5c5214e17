//! Stand-in for `commonware_parallel`: the engine only passes a strategy on.

pub trait Strategy: Clone + 'static {}

#[derive(Clone)]
pub struct Sequential;

impl Strategy for Sequential {}
