//! 01, "Frames": what the seven kinds say, as views of the arriving bytes.

use crate::config::{ensure, is_member, Code, Config, KEPT, SIGNATURE};

pub const TRAILER: usize = 16;
pub const VERSION: u16 = 1;

pub const NEWEPOCH: u8 = 1;
pub const OBSERVE_REQ: u8 = 2;
pub const OBSERVE: u8 = 3;
pub const REPORT_REQ: u8 = 4;
pub const REPORT: u8 = 5;
pub const FINAL: u8 = 6;
pub const FINAL_ECHO: u8 = 7;

/// Bytes of an entry: a member and a value, the same with a signature, a member and a signature.
pub const OBSERVED: usize = 9;
pub const SIGNED: usize = 73;
pub const SIGNER: usize = 65;

/// Where a list begins, behind epoch, round and m.
const LIST: usize = 6;

#[derive(Clone, Copy)]
pub struct Head {
    pub epoch: u32,
    pub round: u8,
}

/// A list of entries of `STRIDE` bytes, each with a member and a value in front.
#[derive(Clone, Copy)]
pub struct List<'a, const STRIDE: usize>(&'a [u8]);

/// The body of a FINAL or a FINAL-ECHO.
#[derive(Clone, Copy)]
pub struct Attested<'a> {
    pub bytes: &'a [u8],
    pub head: Head,
    pub list: List<'a, OBSERVED>,
    signers: &'a [u8],
}

pub enum Message<'a> {
    NewEpoch(u32),
    ObserveReq(Head),
    Observe(Head, i64, &'a [u8]),
    ReportReq(Head, List<'a, SIGNED>),
    Report(Head, List<'a, OBSERVED>, &'a [u8]),
    Final(Attested<'a>),
    FinalEcho(Attested<'a>),
}

fn be_u32(bytes: &[u8]) -> u32 {
    u32::from_be_bytes(bytes[..4].try_into().unwrap())
}

fn be_u64(bytes: &[u8]) -> u64 {
    u64::from_be_bytes(bytes[..8].try_into().unwrap())
}

fn all_members(entries: &[u8], stride: usize, n: u8) -> bool {
    entries.chunks_exact(stride).all(|entry| is_member(entry[0], n))
}

impl Head {
    fn of(body: &[u8]) -> Head {
        Head { epoch: be_u32(body), round: body[4] }
    }

    fn in_range(&self) -> bool {
        self.epoch >= 1 && self.round >= 1
    }
}

impl<'a, const STRIDE: usize> List<'a, STRIDE> {
    pub fn len(&self) -> usize {
        self.0.len() / STRIDE
    }

    pub fn entries(&self) -> impl Iterator<Item = (u8, i64)> + 'a {
        self.0.chunks_exact(STRIDE).map(|entry| (entry[0], be_u64(&entry[1..]) as i64))
    }

    pub fn members(&self) -> impl Iterator<Item = u8> + 'a {
        self.0.chunks_exact(STRIDE).map(|entry| entry[0])
    }

    /// Each entry's member and value as they stand.
    pub fn observed(&self) -> impl Iterator<Item = &'a [u8]> + 'a {
        self.0.chunks_exact(STRIDE).map(|entry| &entry[..OBSERVED])
    }

    pub fn median(&self) -> i64 {
        be_u64(&self.0[self.len() / 2 * STRIDE + 1..]) as i64
    }

    fn in_range(&self, n: u8) -> bool {
        (1..=usize::from(n)).contains(&self.len()) && all_members(self.0, STRIDE, n)
    }
}

impl<'a> Attested<'a> {
    /// LENGTH of a body.
    pub fn read(body: &'a [u8]) -> Result<Self, Code> {
        ensure(body.len() >= LIST, Code::Length)?;
        let end = LIST + OBSERVED * usize::from(body[LIST - 1]);
        ensure(body.len() > end, Code::Length)?;
        ensure(body.len() == end + 1 + SIGNER * usize::from(body[end]), Code::Length)?;
        Ok(Attested::split(body, end))
    }

    fn split(body: &'a [u8], end: usize) -> Self {
        Attested { bytes: body, head: Head::of(body), list: List(&body[LIST..end]), signers: &body[end + 1..] }
    }

    /// The body at the start of a buffer that keeps it; none where it fails RANGE.
    pub fn kept(buffer: &'a [u8; KEPT], n: u8) -> Option<Self> {
        let members = 1..=n;
        let m = buffer[LIST - 1];
        if !members.contains(&m) {
            return None;
        }
        let end = LIST + OBSERVED * usize::from(m);
        let s = buffer[end];
        if !members.contains(&s) {
            return None;
        }
        let body = Attested::split(&buffer[..end + 1 + SIGNER * usize::from(s)], end);
        body.in_range(n).then_some(body)
    }

    /// How long the body in range is that a buffer keeps.
    pub fn length(buffer: &[u8; KEPT]) -> usize {
        let end = LIST + OBSERVED * usize::from(buffer[LIST - 1]);
        end + 1 + SIGNER * usize::from(buffer[end])
    }

    pub fn in_range(&self, n: u8) -> bool {
        self.head.in_range()
            && self.list.in_range(n)
            && (1..=usize::from(n)).contains(&self.signer_count())
            && all_members(self.signers, SIGNER, n)
    }

    pub fn signer_count(&self) -> usize {
        self.signers.len() / SIGNER
    }

    pub fn signers(&self) -> impl Iterator<Item = u8> + 'a {
        self.signers.chunks_exact(SIGNER).map(|entry| entry[0])
    }
}

impl<'a> Message<'a> {
    /// 4 to 9 of a frame that came over the link of a member.
    pub fn read(frame: &'a [u8], config: &Config, link: u8) -> Result<Message<'a>, Code> {
        let (rest, trailer) = frame.split_last_chunk::<TRAILER>().ok_or(Code::Short)?;
        let length = be_u32(&trailer[4..]) as usize;
        ensure(length <= rest.len(), Code::Short)?;
        let version = u16::from_be_bytes([trailer[2], trailer[3]]);
        ensure(version == VERSION && be_u64(&trailer[8..]) == config.number, Code::Version)?;
        let [kind, sender, ..] = *trailer;
        ensure((NEWEPOCH..=FINAL_ECHO).contains(&kind), Code::Kind)?;
        ensure(is_member(sender, config.n) && sender == link, Code::Sender)?;
        ensure(length == rest.len(), Code::Length)?;
        let message = Message::of(kind, rest)?;
        ensure(message.in_range(config.n), Code::Range)?;
        Ok(message)
    }

    /// LENGTH of a body.
    fn of(kind: u8, body: &'a [u8]) -> Result<Message<'a>, Code> {
        Ok(match kind {
            NEWEPOCH => {
                ensure(body.len() == 4, Code::Length)?;
                Message::NewEpoch(be_u32(body))
            }
            OBSERVE_REQ => {
                ensure(body.len() == 5, Code::Length)?;
                Message::ObserveReq(Head::of(body))
            }
            OBSERVE => {
                ensure(body.len() == 13 + SIGNATURE, Code::Length)?;
                Message::Observe(Head::of(body), be_u64(&body[5..]) as i64, &body[13..])
            }
            REPORT_REQ => {
                ensure(body.len() >= LIST && body.len() == LIST + SIGNED * usize::from(body[LIST - 1]), Code::Length)?;
                Message::ReportReq(Head::of(body), List(&body[LIST..]))
            }
            REPORT => {
                ensure(body.len() >= LIST, Code::Length)?;
                let end = LIST + OBSERVED * usize::from(body[LIST - 1]);
                ensure(body.len() == end + SIGNATURE, Code::Length)?;
                Message::Report(Head::of(body), List(&body[LIST..end]), &body[end..])
            }
            FINAL => Message::Final(Attested::read(body)?),
            _ => Message::FinalEcho(Attested::read(body)?),
        })
    }

    fn in_range(&self, n: u8) -> bool {
        match self {
            Message::NewEpoch(epoch) => *epoch >= 1,
            Message::ObserveReq(head) | Message::Observe(head, ..) => head.in_range(),
            Message::ReportReq(head, list) => head.in_range() && list.in_range(n),
            Message::Report(head, list, _) => head.in_range() && list.in_range(n),
            Message::Final(body) | Message::FinalEcho(body) => body.in_range(n),
        }
    }
}
