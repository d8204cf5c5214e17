//! Stand-in for `commonware_cryptography`: digests, keys, and schemes that sign and assemble.

use commonware_codec::{EncodeSize, FixedSize, Read, Write};
use std::fmt::{Debug, Display};
use std::hash::Hash;

pub trait Digest:
    Copy
    + Debug
    + Ord
    + Hash
    + Send
    + Sync
    + 'static
    + AsRef<[u8]>
    + FixedSize
    + Read<Cfg = ()>
    + Write
    + EncodeSize
{
}

pub trait PublicKey: Clone + Debug + Display + Ord + Hash + AsRef<[u8]> + 'static {}

pub mod certificate {
    use super::{Digest, PublicKey};
    use bytes::{BufMut, Bytes};
    use commonware_codec::{
        Buf, EncodeSize, Error, FixedSize, MaxEncodeSize, Read, ReadExt, Write, varint::UInt,
    };
    use commonware_parallel::Strategy;
    use commonware_utils::{Participant, iter::NonEmpty, ordered::Set};
    use rand_core::CryptoRng;
    use std::fmt::Debug;
    use std::hash::{Hash, Hasher};
    use std::sync::Arc;

    pub trait Namespace: Clone {
        fn derive(namespace: &[u8]) -> Self;
    }

    pub trait Subject {
        type Namespace: Namespace;

        fn namespace<'a>(&self, derived: &'a Self::Namespace) -> &'a [u8];
        fn message(&self) -> Bytes;
    }

    pub trait Verifier: Clone + Debug + 'static {
        type PublicKey: PublicKey;
        type Certificate: Clone + Debug + Eq + Hash + Read + Write + EncodeSize;

        fn certificate_codec_config_unbounded() -> <Self::Certificate as Read>::Cfg;
    }

    /// Who the engine is in a set: a signer, or none.
    pub struct Me(pub Option<Participant>);

    impl Me {
        pub fn signer(&self) -> Option<Participant> {
            self.0
        }
    }

    #[derive(Clone, Debug)]
    pub struct AssemblyError;

    pub trait Scheme: Verifier {
        type Signature: Clone
            + Debug
            + Eq
            + Hash
            + Send
            + Sync
            + AsRef<[u8]>
            + FixedSize
            + Read<Cfg = ()>
            + Write
            + EncodeSize;
        type Subject<'a, D: Digest>: Subject;

        fn me(&self) -> Option<Me>;
        fn participants(&self) -> &Set<Self::PublicKey>;
        fn sign<D: Digest>(&self, subject: Self::Subject<'_, D>) -> Option<Attestation<Self>>;
        fn verify_attestation<R: CryptoRng, D: Digest>(
            &self,
            rng: &mut R,
            subject: Self::Subject<'_, D>,
            attestation: &Attestation<Self>,
            strategy: &impl Strategy,
        ) -> bool;
        fn assemble<I: Iterator<Item = Attestation<Self>>>(
            &self,
            attestations: NonEmpty<I>,
            strategy: &impl Strategy,
        ) -> Result<Self::Certificate, AssemblyError>;
        fn verify_certificate<R: CryptoRng, D: Digest>(
            &self,
            rng: &mut R,
            subject: Self::Subject<'_, D>,
            certificate: &Self::Certificate,
            strategy: &impl Strategy,
        ) -> bool;
    }

    pub trait Provider: 'static {
        type Scope;
        type Scheme: Scheme;

        fn scheme(&self, scope: Self::Scope) -> Option<Arc<Self::Scheme>>;
    }

    /// A signer and their signature.
    pub struct Attestation<S: Scheme> {
        pub signer: Participant,
        pub signature: S::Signature,
    }

    /// The highest signer that is read.
    const SIGNER_MAX: u64 = 15;

    impl<S: Scheme> Write for Attestation<S> {
        fn write(&self, writer: &mut impl BufMut) {
            UInt(u64::from(self.signer.0)).write(writer);
            self.signature.write(writer);
        }
    }

    impl<S: Scheme> Read for Attestation<S> {
        type Cfg = ();

        fn read_cfg(reader: &mut impl Buf, _: &()) -> Result<Self, Error> {
            let signer: u64 = UInt::read(reader)?.into();
            if signer > SIGNER_MAX {
                return Err(Error::Invalid("Attestation", "signer"));
            }
            let signature = S::Signature::read(reader)?;
            Ok(Self {
                signer: Participant(signer as u32),
                signature,
            })
        }
    }

    impl<S: Scheme> EncodeSize for Attestation<S> {
        fn encode_size(&self) -> usize {
            UInt(u64::from(self.signer.0)).encode_size() + self.signature.encode_size()
        }
    }

    impl<S: Scheme> MaxEncodeSize for Attestation<S> {
        const MAX_ENCODE_SIZE: usize = 1 + <S::Signature as FixedSize>::SIZE;
    }

    impl<S: Scheme> Clone for Attestation<S> {
        fn clone(&self) -> Self {
            Self {
                signer: self.signer,
                signature: self.signature.clone(),
            }
        }
    }

    impl<S: Scheme> Debug for Attestation<S> {
        fn fmt(&self, f: &mut std::fmt::Formatter<'_>) -> std::fmt::Result {
            write!(f, "Attestation({}, {:?})", self.signer, self.signature)
        }
    }

    impl<S: Scheme> PartialEq for Attestation<S> {
        fn eq(&self, other: &Self) -> bool {
            self.signer == other.signer && self.signature == other.signature
        }
    }

    impl<S: Scheme> Eq for Attestation<S> {}

    impl<S: Scheme> Hash for Attestation<S> {
        fn hash<H: Hasher>(&self, state: &mut H) {
            self.signer.hash(state);
            self.signature.hash(state);
        }
    }
}
