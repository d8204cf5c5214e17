//! Messages and records in plain Rust, read in place and written into a lent buffer as docs/RULES.md says.

#[derive(Clone, Copy, Debug, PartialEq, Eq)]
pub enum Field {
    Kind,
    Height,
    Digest,
    Epoch,
    Signer,
    Signature,
    Tip,
    End,
}

#[derive(Clone, Copy, Debug, PartialEq, Eq)]
pub struct Fault {
    pub field: Field,
    pub at: usize,
}

pub struct Part<'a> {
    pub bytes: &'a [u8],
    pub at: usize,
}

pub struct Ack<'a> {
    pub height: u64,
    pub digest: Part<'a>,
    pub epoch: u64,
    pub signer: u64,
    pub signature: Part<'a>,
}

pub struct Certified<'a> {
    pub height: u64,
    pub digest: Part<'a>,
    pub certificate: Part<'a>,
}

pub enum Activity<'a> {
    Ack(Ack<'a>),
    Certified(Certified<'a>),
    Tip(u64),
}

pub struct TipAck<'a> {
    pub tip: u64,
    pub ack: Ack<'a>,
}

const MAX_RECORD_HEIGHT: u64 = (1 << 62) + 15;
const MAX_SIGNER: u64 = 15;

struct Reader<'a> {
    left: &'a [u8],
    at: usize,
}

impl<'a> Reader<'a> {
    fn uint(&mut self, field: Field, most: u64) -> Result<u64, Fault> {
        let mut value = 0;
        let mut room = most;
        for (k, &byte) in self.left.iter().enumerate() {
            let group = u64::from(byte);
            if k > 0 && group == 0 || group > room {
                return Err(Fault {
                    field,
                    at: self.at + k,
                });
            }
            value |= (group & 0x7f) << (7 * k);
            if group < 0x80 {
                self.left = &self.left[k + 1..];
                self.at += k + 1;
                return Ok(value);
            }
            room = (room - (group & 0x7f)) >> 7;
        }
        Err(Fault {
            field,
            at: self.at + self.left.len(),
        })
    }

    fn part(&mut self, field: Field, len: usize) -> Result<Part<'a>, Fault> {
        let at = self.at;
        let fault = Fault {
            field,
            at: at + self.left.len(),
        };
        let (bytes, left) = self.left.split_at_checked(len).ok_or(fault)?;
        self.left = left;
        self.at += len;
        Ok(Part { bytes, at })
    }

    fn rest(self) -> Part<'a> {
        Part {
            bytes: self.left,
            at: self.at,
        }
    }

    #[inline(always)]
    fn ack(&mut self, most: u64) -> Result<Ack<'a>, Fault> {
        Ok(Ack {
            height: self.uint(Field::Height, most)?,
            digest: self.part(Field::Digest, 32)?,
            epoch: self.uint(Field::Epoch, u64::MAX)?,
            signer: self.uint(Field::Signer, MAX_SIGNER)?,
            signature: self.part(Field::Signature, 64)?,
        })
    }

    fn end(&self) -> Result<(), Fault> {
        if self.left.is_empty() {
            return Ok(());
        }
        Err(Fault {
            field: Field::End,
            at: self.at,
        })
    }
}

pub fn read_activity(bytes: &[u8]) -> Result<Activity<'_>, Fault> {
    let Some((kind, left)) = bytes.split_first() else {
        return Err(Fault {
            field: Field::Kind,
            at: 0,
        });
    };
    let mut body = Reader { left, at: 1 };
    match kind {
        0 => {
            let ack = body.ack(MAX_RECORD_HEIGHT)?;
            body.end()?;
            Ok(Activity::Ack(ack))
        }
        1 => Ok(Activity::Certified(Certified {
            height: body.uint(Field::Height, MAX_RECORD_HEIGHT)?,
            digest: body.part(Field::Digest, 32)?,
            certificate: body.rest(),
        })),
        2 => {
            let tip = body.uint(Field::Tip, MAX_RECORD_HEIGHT)?;
            body.end()?;
            Ok(Activity::Tip(tip))
        }
        _ => Err(Fault {
            field: Field::Kind,
            at: 0,
        }),
    }
}

pub fn read_message(bytes: &[u8]) -> Result<TipAck<'_>, Fault> {
    let mut reader = Reader { left: bytes, at: 0 };
    let tip = reader.uint(Field::Tip, u64::MAX)?;
    let ack = reader.ack(u64::MAX)?;
    reader.end()?;
    Ok(TipAck { tip, ack })
}

/// The buffer is too short; nothing was written.
#[derive(Debug)]
pub struct Short;

pub struct NewAck<'a> {
    pub height: u64,
    pub digest: &'a [u8; 32],
    pub epoch: u64,
    pub signer: u64,
    pub signature: &'a [u8; 64],
}

pub struct NewCertified<'a> {
    pub height: u64,
    pub digest: &'a [u8; 32],
    pub certificate: &'a [u8],
}

pub enum NewActivity<'a> {
    Ack(NewAck<'a>),
    Certified(NewCertified<'a>),
    Tip(u64),
}

pub struct NewTipAck<'a> {
    pub tip: u64,
    pub ack: NewAck<'a>,
}

fn uint_len(n: u64) -> usize {
    (70 - (n | 1).leading_zeros() as usize) / 7
}

impl NewAck<'_> {
    fn len(&self) -> usize {
        uint_len(self.height) + 32 + uint_len(self.epoch) + uint_len(self.signer) + 64
    }
}

impl NewActivity<'_> {
    fn len(&self) -> usize {
        1 + match self {
            Self::Ack(ack) => ack.len(),
            Self::Certified(certified) => {
                uint_len(certified.height) + 32 + certified.certificate.len()
            }
            Self::Tip(tip) => uint_len(*tip),
        }
    }
}

struct Writer<'a> {
    out: &'a mut [u8],
    at: usize,
}

impl<'a> Writer<'a> {
    fn new(out: &'a mut [u8], len: usize) -> Result<Self, Short> {
        let out = out.get_mut(..len).ok_or(Short)?;
        Ok(Self { out, at: 0 })
    }

    fn byte(&mut self, byte: u8) {
        self.out[self.at] = byte;
        self.at += 1;
    }

    #[inline(always)]
    fn uint(&mut self, mut n: u64) {
        while n >= 0x80 {
            self.byte(n as u8 | 0x80);
            n >>= 7;
        }
        self.byte(n as u8);
    }

    #[inline(always)]
    fn bytes(&mut self, bytes: &[u8]) {
        self.out[self.at..][..bytes.len()].copy_from_slice(bytes);
        self.at += bytes.len();
    }

    #[inline(always)]
    fn ack(&mut self, ack: &NewAck<'_>) {
        self.uint(ack.height);
        self.bytes(ack.digest);
        self.uint(ack.epoch);
        self.uint(ack.signer);
        self.bytes(ack.signature);
    }
}

pub fn write_activity(out: &mut [u8], activity: &NewActivity<'_>) -> Result<usize, Short> {
    let mut writer = Writer::new(out, activity.len())?;
    match activity {
        NewActivity::Ack(ack) => {
            writer.byte(0);
            writer.ack(ack);
        }
        NewActivity::Certified(certified) => {
            writer.byte(1);
            writer.uint(certified.height);
            writer.bytes(certified.digest);
            writer.bytes(certified.certificate);
        }
        NewActivity::Tip(tip) => {
            writer.byte(2);
            writer.uint(*tip);
        }
    }
    Ok(writer.at)
}

pub fn write_message(out: &mut [u8], message: &NewTipAck<'_>) -> Result<usize, Short> {
    let mut writer = Writer::new(out, uint_len(message.tip) + message.ack.len())?;
    writer.uint(message.tip);
    writer.ack(&message.ack);
    Ok(writer.at)
}
