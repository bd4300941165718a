//! 01, "Frames": a body and then a 16-byte trailer that points back.

use crate::bytes::{Reader, Writer};
use crate::config::is_member;
use crate::Code;

pub const TRAILER: usize = 16;
pub const VERSION: u16 = 1;
pub const SIGNATURE: usize = 64;
/// A FINAL body kept or queued stands in so many bytes.
pub const SLOT: usize = 2304;

pub type Signature = [u8; SIGNATURE];

pub const NEWEPOCH: u8 = 1;
pub const OBSERVE_REQ: u8 = 2;
pub const OBSERVE: u8 = 3;
pub const REPORT_REQ: u8 = 4;
pub const REPORT: u8 = 5;
pub const FINAL: u8 = 6;
pub const FINAL_ECHO: u8 = 7;

#[derive(Clone, Copy, PartialEq, Eq, Debug)]
pub enum GoesTo {
    All,
    Leader,
}

/// One row of the table of kinds: length = base + per_m × m + per_s × s.
pub struct Row {
    pub kind: u8,
    pub base: usize,
    pub per_m: usize,
    pub per_s: usize,
    pub goes_to: GoesTo,
}

pub const TABLE: [Row; 7] = [
    Row { kind: NEWEPOCH, base: 4, per_m: 0, per_s: 0, goes_to: GoesTo::All },
    Row { kind: OBSERVE_REQ, base: 5, per_m: 0, per_s: 0, goes_to: GoesTo::All },
    Row { kind: OBSERVE, base: 77, per_m: 0, per_s: 0, goes_to: GoesTo::Leader },
    Row { kind: REPORT_REQ, base: 6, per_m: 73, per_s: 0, goes_to: GoesTo::All },
    Row { kind: REPORT, base: 70, per_m: 9, per_s: 0, goes_to: GoesTo::Leader },
    Row { kind: FINAL, base: 7, per_m: 9, per_s: 65, goes_to: GoesTo::All },
    Row { kind: FINAL_ECHO, base: 7, per_m: 9, per_s: 65, goes_to: GoesTo::All },
];

pub fn row(kind: u8) -> &'static Row {
    &TABLE[kind as usize - 1]
}

/// One entry (member, value).
#[derive(Clone, Copy, PartialEq, Eq, Debug)]
pub struct Observed {
    pub member: u8,
    pub value: i64,
}

/// One entry (member, value, signature).
#[derive(Clone, Copy, PartialEq, Eq, Debug)]
pub struct SignedObserved {
    pub member: u8,
    pub value: i64,
    pub signature: Signature,
}

/// One entry (member, signature).
#[derive(Clone, Copy, PartialEq, Eq, Debug)]
pub struct Signer {
    pub member: u8,
    pub signature: Signature,
}

/// The body of a FINAL or FINAL-ECHO; also what is kept, waits, and goes to the contract.
#[derive(Clone, PartialEq, Eq, Debug)]
pub struct FinalBody {
    pub epoch: u32,
    pub round: u8,
    pub list: Vec<Observed>,
    pub signers: Vec<Signer>,
}

#[derive(Clone, PartialEq, Eq, Debug)]
pub enum Message {
    NewEpoch { epoch: u32 },
    ObserveReq { epoch: u32, round: u8 },
    Observe { epoch: u32, round: u8, value: i64, signature: Signature },
    ReportReq { epoch: u32, round: u8, list: Vec<SignedObserved> },
    Report { epoch: u32, round: u8, list: Vec<Observed>, signature: Signature },
    Final(FinalBody),
    FinalEcho(FinalBody),
}

/// Whether a body has its kind's length. A body too short to hold m (or s) hasn't.
pub fn length_fits(kind: u8, body: &[u8]) -> bool {
    let row = row(kind);
    match kind {
        REPORT_REQ | REPORT => body.len() >= 6 && body.len() == row.base + row.per_m * body[5] as usize,
        FINAL | FINAL_ECHO => {
            if body.len() < 6 {
                return false;
            }
            let m = body[5] as usize;
            let place_of_s = 6 + row.per_m * m;
            body.len() > place_of_s && body.len() == row.base + row.per_m * m + row.per_s * body[place_of_s] as usize
        }
        _ => body.len() == row.base,
    }
}

fn epoch_in_range(epoch: u32) -> bool {
    epoch >= 1
}

fn round_in_range(round: u8) -> bool {
    round >= 1
}

/// "m and s: 1 to n".
fn count_in_range(count: usize, n: u8) -> bool {
    1 <= count && count <= n as usize
}

fn list_in_range(list: &[Observed], n: u8) -> bool {
    count_in_range(list.len(), n) && list.iter().all(|entry| is_member(entry.member, n))
}

fn read_list(reader: &mut Reader, m: usize) -> Vec<Observed> {
    (0..m).map(|_| Observed { member: reader.u8(), value: reader.i64() }).collect()
}

fn write_list(writer: &mut Writer, list: &[Observed]) {
    for entry in list {
        writer.u8(entry.member).i64(entry.value);
    }
}

impl FinalBody {
    pub fn length(&self) -> usize {
        7 + 9 * self.list.len() + 65 * self.signers.len()
    }

    /// Reads a body whose length fits.
    pub fn read(body: &[u8]) -> FinalBody {
        let mut reader = Reader::new(body);
        let epoch = reader.u32();
        let round = reader.u8();
        let m = reader.u8() as usize;
        let list = read_list(&mut reader, m);
        let s = reader.u8() as usize;
        let signers = (0..s).map(|_| Signer { member: reader.u8(), signature: reader.bytes() }).collect();
        FinalBody { epoch, round, list, signers }
    }

    pub fn write(&self) -> Vec<u8> {
        let mut writer = Writer::new();
        writer.u32(self.epoch).u8(self.round).u8(self.list.len() as u8);
        write_list(&mut writer, &self.list);
        writer.u8(self.signers.len() as u8);
        for signer in &self.signers {
            writer.u8(signer.member).put(&signer.signature);
        }
        writer.bytes
    }

    pub fn in_range(&self, n: u8) -> bool {
        epoch_in_range(self.epoch)
            && round_in_range(self.round)
            && list_in_range(&self.list, n)
            && count_in_range(self.signers.len(), n)
            && self.signers.iter().all(|signer| is_member(signer.member, n))
    }

    /// The body at the start of a full slot; None if it fails RANGE. Nothing else of it is tested.
    pub fn stored(slot: &[u8], n: u8) -> Option<FinalBody> {
        let m = slot[5] as usize;
        if !count_in_range(m, n) {
            return None;
        }
        let s = slot[6 + 9 * m] as usize;
        if !count_in_range(s, n) {
            return None;
        }
        let body = FinalBody::read(&slot[..7 + 9 * m + 65 * s]);
        if body.in_range(n) {
            Some(body)
        } else {
            None
        }
    }
}

impl Message {
    pub fn kind(&self) -> u8 {
        match self {
            Message::NewEpoch { .. } => NEWEPOCH,
            Message::ObserveReq { .. } => OBSERVE_REQ,
            Message::Observe { .. } => OBSERVE,
            Message::ReportReq { .. } => REPORT_REQ,
            Message::Report { .. } => REPORT,
            Message::Final(_) => FINAL,
            Message::FinalEcho(_) => FINAL_ECHO,
        }
    }

    /// Reads a body of a kind from 1 to 7 whose length fits.
    pub fn read(kind: u8, body: &[u8]) -> Message {
        let mut reader = Reader::new(body);
        match kind {
            NEWEPOCH => Message::NewEpoch { epoch: reader.u32() },
            OBSERVE_REQ => Message::ObserveReq { epoch: reader.u32(), round: reader.u8() },
            OBSERVE => Message::Observe {
                epoch: reader.u32(),
                round: reader.u8(),
                value: reader.i64(),
                signature: reader.bytes(),
            },
            REPORT_REQ => {
                let epoch = reader.u32();
                let round = reader.u8();
                let m = reader.u8() as usize;
                let mut list = Vec::new();
                for _ in 0..m {
                    list.push(SignedObserved { member: reader.u8(), value: reader.i64(), signature: reader.bytes() });
                }
                Message::ReportReq { epoch, round, list }
            }
            REPORT => {
                let epoch = reader.u32();
                let round = reader.u8();
                let m = reader.u8() as usize;
                let list = read_list(&mut reader, m);
                Message::Report { epoch, round, list, signature: reader.bytes() }
            }
            FINAL => Message::Final(FinalBody::read(body)),
            _ => Message::FinalEcho(FinalBody::read(body)),
        }
    }

    pub fn body(&self) -> Vec<u8> {
        let mut writer = Writer::new();
        match self {
            Message::NewEpoch { epoch } => {
                writer.u32(*epoch);
            }
            Message::ObserveReq { epoch, round } => {
                writer.u32(*epoch).u8(*round);
            }
            Message::Observe { epoch, round, value, signature } => {
                writer.u32(*epoch).u8(*round).i64(*value).put(signature);
            }
            Message::ReportReq { epoch, round, list } => {
                writer.u32(*epoch).u8(*round).u8(list.len() as u8);
                for entry in list {
                    writer.u8(entry.member).i64(entry.value).put(&entry.signature);
                }
            }
            Message::Report { epoch, round, list, signature } => {
                writer.u32(*epoch).u8(*round).u8(list.len() as u8);
                write_list(&mut writer, list);
                writer.put(signature);
            }
            Message::Final(body) | Message::FinalEcho(body) => {
                writer.put(&body.write());
            }
        }
        writer.bytes
    }

    /// The frame: the body, then the trailer.
    pub fn frame(&self, sender: u8, configuration: u64) -> Vec<u8> {
        let mut writer = Writer::new();
        let body = self.body();
        writer.put(&body);
        writer.put(&trailer(self.kind(), sender, VERSION, body.len() as u32, configuration));
        writer.bytes
    }

    /// RANGE of what the message itself says.
    pub fn in_range(&self, n: u8) -> bool {
        match self {
            Message::NewEpoch { epoch } => epoch_in_range(*epoch),
            Message::ObserveReq { epoch, round } => epoch_in_range(*epoch) && round_in_range(*round),
            Message::Observe { epoch, round, .. } => epoch_in_range(*epoch) && round_in_range(*round),
            Message::ReportReq { epoch, round, list } => {
                epoch_in_range(*epoch)
                    && round_in_range(*round)
                    && count_in_range(list.len(), n)
                    && list.iter().all(|entry| is_member(entry.member, n))
            }
            Message::Report { epoch, round, list, .. } => {
                epoch_in_range(*epoch) && round_in_range(*round) && list_in_range(list, n)
            }
            Message::Final(body) | Message::FinalEcho(body) => body.in_range(n),
        }
    }
}

/// "kind (1 byte), sender (1), version (2, value 1), body length (4), configuration number (8)".
pub fn trailer(kind: u8, sender: u8, version: u16, body_length: u32, configuration: u64) -> Vec<u8> {
    let mut writer = Writer::new();
    writer.u8(kind).u8(sender).u16(version).u32(body_length).u64(configuration);
    writer.bytes
}

/// The codes 4 to 8 of a delivery. Gives the sender, the message and the length of its body.
pub fn read_frame(frame: &[u8], n: u8, configuration: u64, link: u8) -> Result<(u8, Message, usize), Code> {
    if frame.len() < TRAILER {
        return Err(Code::Short);
    }
    let end = frame.len() - TRAILER;
    let mut reader = Reader::new(&frame[end..]);
    let kind = reader.u8();
    let sender = reader.u8();
    let version = reader.u16();
    let body_length = reader.u32();
    let number = reader.u64();
    if body_length as u64 + TRAILER as u64 > frame.len() as u64 {
        return Err(Code::Short);
    }
    if version != VERSION || number != configuration {
        return Err(Code::Version);
    }
    if kind < 1 || kind > 7 {
        return Err(Code::Kind);
    }
    if sender == 0 || sender > n || sender != link {
        return Err(Code::Sender);
    }
    let start = end - body_length as usize;
    let body = &frame[start..end];
    if start != 0 || !length_fits(kind, body) {
        return Err(Code::Length);
    }
    Ok((sender, Message::read(kind, body), body.len()))
}
