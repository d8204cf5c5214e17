//! The bytes of messages and records that a line asks for, also such as no engine would write.

use bytes::BufMut;
use commonware_codec::{Encode, varint::UInt};

pub fn uint(value: u64) -> Vec<u8> {
    UInt(value).encode().to_vec()
}

pub fn ack(height: u64, digest: &[u8], epoch: u64, signer: u64, signature: &[u8]) -> Vec<u8> {
    let mut bytes = uint(height);
    bytes.put_slice(digest);
    bytes.extend(uint(epoch));
    bytes.extend(uint(signer));
    bytes.put_slice(signature);
    bytes
}
