//! Writing frames into the outbox, one directly after the other.

use crate::config::{Config, SIGNATURE};
use crate::frame::{
    Attested, Head, List, FINAL, FINAL_ECHO, NEWEPOCH, OBSERVE, OBSERVE_REQ, REPORT, REPORT_REQ, SIGNED, VERSION,
};

pub struct Outbox<'a> {
    bytes: &'a mut [u8],
    written: usize,
}

/// The members of a list in their order, with values and signatures by member.
pub struct Table<'a> {
    pub order: &'a [u8],
    pub values: &'a [i64],
    pub signatures: &'a [u8],
}

fn signature(signatures: &[u8], member: u8) -> &[u8] {
    &signatures[SIGNATURE * usize::from(member - 1)..][..SIGNATURE]
}

impl<'a> Outbox<'a> {
    /// From a position on.
    pub fn new(bytes: &'a mut [u8]) -> Outbox<'a> {
        Outbox { bytes, written: 0 }
    }

    pub fn written(&self) -> usize {
        self.written
    }

    fn put(&mut self, bytes: &[u8]) {
        self.bytes[self.written..][..bytes.len()].copy_from_slice(bytes);
        self.written += bytes.len();
    }

    fn head(&mut self, head: Head) {
        self.put(&head.epoch.to_be_bytes());
        self.put(&[head.round]);
    }

    fn trailer(&mut self, config: &Config, kind: u8, length: usize) {
        let mut trailer = [0; 16];
        trailer[0] = kind;
        trailer[1] = config.own;
        trailer[2..4].copy_from_slice(&VERSION.to_be_bytes());
        trailer[4..8].copy_from_slice(&(length as u32).to_be_bytes());
        trailer[8..].copy_from_slice(&config.number.to_be_bytes());
        self.put(&trailer);
    }

    pub fn new_epoch(&mut self, config: &Config, epoch: u32) {
        self.put(&epoch.to_be_bytes());
        self.trailer(config, NEWEPOCH, 4);
    }

    pub fn observe_req(&mut self, config: &Config, head: Head) {
        self.head(head);
        self.trailer(config, OBSERVE_REQ, 5);
    }

    pub fn observe(&mut self, config: &Config, head: Head, value: i64) {
        self.head(head);
        self.put(&value.to_be_bytes());
        self.put(&[0; SIGNATURE]);
        self.trailer(config, OBSERVE, 13 + SIGNATURE);
    }

    pub fn report_req(&mut self, config: &Config, head: Head, table: Table) {
        let start = self.written;
        self.head(head);
        self.put(&[table.order.len() as u8]);
        for member in table.order {
            self.observation(*member, table.values);
            self.put(signature(table.signatures, *member));
        }
        self.trailer(config, REPORT_REQ, self.written - start);
    }

    /// The answer to a REPORT-REQ of this list.
    pub fn report(&mut self, config: &Config, head: Head, list: List<SIGNED>) {
        let start = self.written;
        self.head(head);
        self.put(&[list.len() as u8]);
        for observed in list.observed() {
            self.put(observed);
        }
        self.put(&[0; SIGNATURE]);
        self.trailer(config, REPORT, self.written - start);
    }

    pub fn final_report(&mut self, config: &Config, head: Head, table: Table, signers: &[u8]) {
        let start = self.written;
        self.head(head);
        self.put(&[table.order.len() as u8]);
        for member in table.order {
            self.observation(*member, table.values);
        }
        self.put(&[signers.len() as u8]);
        for member in signers {
            self.put(&[*member]);
            self.put(signature(table.signatures, *member));
        }
        self.trailer(config, FINAL, self.written - start);
    }

    pub fn echo(&mut self, config: &Config, body: &Attested) {
        self.put(body.bytes);
        self.trailer(config, FINAL_ECHO, body.bytes.len());
    }

    fn observation(&mut self, member: u8, values: &[i64]) {
        self.put(&[member]);
        self.put(&values[usize::from(member - 1)].to_be_bytes());
    }
}
