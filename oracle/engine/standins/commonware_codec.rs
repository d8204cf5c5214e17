//! Stand-in for `commonware_codec`: reading and writing of bytes, and the shortest variable-length
//! integers.

use bytes::{BufMut, Bytes};

#[derive(Clone, Debug, PartialEq, Eq)]
pub enum Error {
    EndOfBuffer,
    ExtraData(usize),
    InvalidVarint,
    Invalid(&'static str, &'static str),
}

/// Where bytes are read.
pub trait Buf {
    fn remaining(&self) -> usize;
    fn take(&mut self, len: usize) -> Result<&[u8], Error>;
}

impl Buf for &[u8] {
    fn remaining(&self) -> usize {
        self.len()
    }

    fn take(&mut self, len: usize) -> Result<&[u8], Error> {
        let (taken, rest) = self.split_at_checked(len).ok_or(Error::EndOfBuffer)?;
        *self = rest;
        Ok(taken)
    }
}

pub trait Write {
    fn write(&self, writer: &mut impl BufMut);
}

pub trait EncodeSize {
    fn encode_size(&self) -> usize;
}

pub trait MaxEncodeSize {
    const MAX_ENCODE_SIZE: usize;
}

pub trait FixedSize {
    const SIZE: usize;
}

pub trait Encode: Write + EncodeSize {
    fn encode(&self) -> Bytes {
        let mut bytes = Vec::with_capacity(self.encode_size());
        self.write(&mut bytes);
        assert_eq!(bytes.len(), self.encode_size());
        Bytes::from(bytes)
    }
}

impl<T: Write + EncodeSize> Encode for T {}

pub trait Read: Sized {
    type Cfg;

    fn read_cfg(reader: &mut impl Buf, cfg: &Self::Cfg) -> Result<Self, Error>;
}

pub trait ReadExt: Read<Cfg = ()> {
    fn read(reader: &mut impl Buf) -> Result<Self, Error> {
        Self::read_cfg(reader, &())
    }
}

impl<T: Read<Cfg = ()>> ReadExt for T {}

/// Reads a whole message or record: nothing may be left over.
pub fn decode<T: Read>(mut bytes: &[u8], cfg: &T::Cfg) -> Result<T, Error> {
    let value = T::read_cfg(&mut bytes, cfg)?;
    if !bytes.is_empty() {
        return Err(Error::ExtraData(bytes.len()));
    }
    Ok(value)
}

impl Write for u8 {
    fn write(&self, writer: &mut impl BufMut) {
        writer.put_slice(&[*self]);
    }
}

impl Read for u8 {
    type Cfg = ();

    fn read_cfg(reader: &mut impl Buf, _: &()) -> Result<Self, Error> {
        Ok(reader.take(1)?[0])
    }
}

pub mod varint {
    use super::*;

    /// Groups of seven bits, low group first, the top bit set while more follow.
    pub struct UInt<T>(pub T);

    impl From<UInt<u64>> for u64 {
        fn from(value: UInt<u64>) -> u64 {
            value.0
        }
    }

    impl Write for UInt<u64> {
        fn write(&self, writer: &mut impl BufMut) {
            let mut left = self.0;
            while left >= 128 {
                writer.put_slice(&[left as u8 | 128]);
                left >>= 7;
            }
            writer.put_slice(&[left as u8]);
        }
    }

    impl EncodeSize for UInt<u64> {
        fn encode_size(&self) -> usize {
            (self.0.max(1).ilog2() / 7 + 1) as usize
        }
    }

    impl MaxEncodeSize for UInt<u64> {
        const MAX_ENCODE_SIZE: usize = 10;
    }

    impl Read for UInt<u64> {
        type Cfg = ();

        /// Only the shortest spelling of a 64-bit number is read.
        fn read_cfg(reader: &mut impl Buf, _: &()) -> Result<Self, Error> {
            let mut value = 0u64;
            for group in 0..10 {
                let byte = reader.take(1)?[0];
                let overlong = group > 0 && byte == 0;
                let too_wide = group == 9 && byte > 1;
                if overlong || too_wide {
                    return Err(Error::InvalidVarint);
                }
                value |= u64::from(byte & 127) << (7 * group);
                if byte < 128 {
                    break;
                }
            }
            Ok(Self(value))
        }
    }
}
