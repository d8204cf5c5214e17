//! The trial schemes: who signs in an epoch, what is accepted, and how a certificate looks.

use super::types::Item;
use crate::types::{Epoch, Participant};
use bytes::BufMut;
use commonware_codec::{Buf, EncodeSize, Error, FixedSize, Read, Write};
use commonware_cryptography::{
    Digest, PublicKey,
    certificate::{self, AssemblyError, Attestation, Me, Provider, Verifier},
};
use commonware_parallel::Strategy;
use commonware_utils::{
    N3f1,
    iter::NonEmpty,
    ordered::{Quorum, Set},
};
use rand_core::CryptoRng;
use std::collections::BTreeMap;
use std::fmt::{self, Display};
use std::sync::Arc;

/// A scheme that signs items.
pub trait Scheme<D: Digest>: for<'a> certificate::Scheme<Subject<'a, D> = &'a Item<D>> {}

impl<D: Digest, S: for<'a> certificate::Scheme<Subject<'a, D> = &'a Item<D>>> Scheme<D> for S {}

/// A value of so many bytes.
#[derive(Copy, Clone, Debug, PartialEq, Eq, PartialOrd, Ord, Hash)]
pub struct Fixed<const N: usize>(pub [u8; N]);

pub type Key = Fixed<32>;
pub type Digest32 = Fixed<32>;
pub type Signature = Fixed<64>;

impl<const N: usize> Fixed<N> {
    /// These bytes first, and zeros after them.
    pub fn padded(bytes: &[u8]) -> Option<Self> {
        let mut whole = [0; N];
        whole.get_mut(..bytes.len())?.copy_from_slice(bytes);
        Some(Self(whole))
    }
}

impl<const N: usize> AsRef<[u8]> for Fixed<N> {
    fn as_ref(&self) -> &[u8] {
        &self.0
    }
}

impl<const N: usize> Display for Fixed<N> {
    fn fmt(&self, f: &mut fmt::Formatter<'_>) -> fmt::Result {
        write!(f, "{}", world::hex(&self.0))
    }
}

impl<const N: usize> Write for Fixed<N> {
    fn write(&self, writer: &mut impl BufMut) {
        writer.put_slice(&self.0);
    }
}

impl<const N: usize> EncodeSize for Fixed<N> {
    fn encode_size(&self) -> usize {
        N
    }
}

impl<const N: usize> FixedSize for Fixed<N> {
    const SIZE: usize = N;
}

impl<const N: usize> Read for Fixed<N> {
    type Cfg = ();

    fn read_cfg(reader: &mut impl Buf, _: &()) -> Result<Self, Error> {
        Ok(Self(reader.take(N)?.try_into().expect("so many bytes")))
    }
}

impl Digest for Fixed<32> {}
impl PublicKey for Fixed<32> {}

/// A certificate: all the bytes that are left.
#[derive(Clone, Debug, PartialEq, Eq, Hash)]
pub struct CertificateBytes(pub Vec<u8>);

impl Write for CertificateBytes {
    fn write(&self, writer: &mut impl BufMut) {
        writer.put_slice(&self.0);
    }
}

impl EncodeSize for CertificateBytes {
    fn encode_size(&self) -> usize {
        self.0.len()
    }
}

impl Read for CertificateBytes {
    type Cfg = ();

    fn read_cfg(reader: &mut impl Buf, _: &()) -> Result<Self, Error> {
        let left = reader.remaining();
        Ok(Self(reader.take(left)?.to_vec()))
    }
}

/// The signature of a signer for a height and a digest.
pub fn trial_tag(signer: u64, height: u64, digest: &[u8]) -> Signature {
    let words = digest
        .chunks(8)
        .map(|w| u64::from_be_bytes(w.try_into().expect("eight bytes")));
    let tag = words.fold((signer + 1) ^ height.rotate_left(17), |tag, word| {
        tag ^ word
    });
    Signature::padded(&tag.to_be_bytes()).expect("eight bytes")
}

fn tag_of(signature: &Signature) -> u64 {
    u64::from_be_bytes(signature.0[..8].try_into().expect("eight bytes"))
}

#[derive(Clone, Copy, Debug, Default, PartialEq, Eq)]
pub enum Kind {
    /// The map of the signers, then their signatures.
    #[default]
    Listed,
    /// The map of the signers, then the wrapping sum of their tags.
    Pooled,
}

/// The scheme of one epoch.
#[derive(Clone, Debug)]
pub struct Trial {
    pub kind: Kind,
    pub participants: Set<Key>,
    pub own: Option<u32>,
}

impl Verifier for Trial {
    type PublicKey = Key;
    type Certificate = CertificateBytes;

    fn certificate_codec_config_unbounded() {}
}

impl certificate::Scheme for Trial {
    type Signature = Signature;
    type Subject<'a, D: Digest> = &'a Item<D>;

    fn me(&self) -> Option<Me> {
        self.own.map(|own| Me(Some(Participant(own))))
    }

    fn participants(&self) -> &Set<Key> {
        &self.participants
    }

    fn sign<D: Digest>(&self, item: &Item<D>) -> Option<Attestation<Self>> {
        let own = self.own?;
        let signature = trial_tag(u64::from(own), item.height.get(), item.digest.as_ref());
        Some(Attestation {
            signer: Participant(own),
            signature,
        })
    }

    fn verify_attestation<R: CryptoRng, D: Digest>(
        &self,
        _: &mut R,
        item: &Item<D>,
        attestation: &Attestation<Self>,
        _: &impl Strategy,
    ) -> bool {
        let signer = u64::from(attestation.signer.0);
        attestation.signature == trial_tag(signer, item.height.get(), item.digest.as_ref())
    }

    /// Any ascending list of a quorum or more signers of the set, and no other.
    fn assemble<I: Iterator<Item = Attestation<Self>>>(
        &self,
        attestations: NonEmpty<I>,
        _: &impl Strategy,
    ) -> Result<CertificateBytes, AssemblyError> {
        let (first, rest) = attestations.into_parts();
        let all: Vec<_> = std::iter::once(first).chain(rest).collect();
        let ascending = all.windows(2).all(|pair| pair[0].signer < pair[1].signer);
        let known = all
            .iter()
            .all(|a| (a.signer.0 as usize) < self.participants.len());
        let enough = all.len() >= self.participants.quorum::<N3f1>() as usize;
        if !(ascending && known && enough) {
            return Err(AssemblyError);
        }
        let map = all.iter().fold(0u16, |map, a| map | 1 << a.signer.0);
        let mut bytes = map.to_be_bytes().to_vec();
        match self.kind {
            Kind::Listed => all
                .iter()
                .for_each(|a| bytes.extend_from_slice(&a.signature.0)),
            Kind::Pooled => {
                let sum = all
                    .iter()
                    .fold(0u64, |sum, a| sum.wrapping_add(tag_of(&a.signature)));
                bytes.extend_from_slice(&sum.to_be_bytes());
            }
        }
        Ok(CertificateBytes(bytes))
    }

    /// The engine never asks this.
    fn verify_certificate<R: CryptoRng, D: Digest>(
        &self,
        _: &mut R,
        _: &Item<D>,
        _: &CertificateBytes,
        _: &impl Strategy,
    ) -> bool {
        unimplemented!("the engine verifies no certificate")
    }
}

/// The schemes by epoch; an epoch without one is unknown.
#[derive(Clone, Default)]
pub struct Schemes(pub BTreeMap<u64, Arc<Trial>>);

impl Provider for Schemes {
    type Scope = Epoch;
    type Scheme = Trial;

    fn scheme(&self, epoch: Epoch) -> Option<Arc<Trial>> {
        self.0.get(&epoch.get()).cloned()
    }
}
