//! Stand-in for `commonware_utils`: the part that safe_tip.rs names.

/// The fault model n >= 3f + 1.
pub struct N3f1;

pub mod ordered {
    /// A sorted set of distinct keys.
    pub struct Set<K>(Vec<K>);

    impl<K: Ord> Set<K> {
        /// `None` where a key stands twice.
        pub fn new(mut keys: Vec<K>) -> Option<Self> {
            keys.sort();
            let distinct = keys.windows(2).all(|pair| pair[0] != pair[1]);
            distinct.then_some(Self(keys))
        }

        pub fn len(&self) -> usize {
            self.0.len()
        }

        pub fn is_empty(&self) -> bool {
            self.0.is_empty()
        }

        pub fn position(&self, key: &K) -> Option<usize> {
            self.0.binary_search(key).ok()
        }
    }

    impl<'a, K> IntoIterator for &'a Set<K> {
        type Item = &'a K;
        type IntoIter = std::slice::Iter<'a, K>;

        fn into_iter(self) -> Self::IntoIter {
            self.0.iter()
        }
    }

    /// The fault bound of a set under a fault model.
    pub trait Quorum {
        fn max_faults<M>(&self) -> u32;
        fn quorum<M>(&self) -> u32;
    }

    impl<K: Ord> Quorum for Set<K> {
        fn max_faults<M>(&self) -> u32 {
            ((self.len() - 1) / 3) as u32
        }

        fn quorum<M>(&self) -> u32 {
            self.len() as u32 - self.max_faults::<M>()
        }
    }
}
