//! The calls of `include/wederburh.h`, under the names `plain_*`.
//!
//! As for the calls that they stand beside, the host lends aligned structs and initialised buffers that do not overlap.

use crate::contract::LentContract;
use crate::follower::Arrival;
use crate::node::LentNode;
use crate::sender::LentSender;
use core::slice::{from_raw_parts, from_raw_parts_mut};

#[no_mangle]
pub extern "C" fn plain_node_fresh(lent: &mut LentNode) -> u8 {
    lent.restore(0, 0) as u8
}

#[no_mangle]
pub extern "C" fn plain_node_restore(lent: &mut LentNode, epoch: u32, highest: u32) -> u8 {
    lent.restore(epoch, highest) as u8
}

/// # Safety
/// Each pointer is the start of so many bytes as the number after it says.
#[no_mangle]
pub unsafe extern "C" fn plain_node_start(
    lent: &mut LentNode,
    time: u64,
    outbox: *mut u8,
    outbox_len: usize,
    at: usize,
    kept: *const u8,
    kept_len: usize,
    signatures: *const u8,
    signatures_len: usize,
) -> u8 {
    let outbox = from_raw_parts_mut(outbox, outbox_len);
    let kept = from_raw_parts(kept, kept_len);
    let signatures = from_raw_parts(signatures, signatures_len);
    lent.start(time, outbox, at, kept, signatures) as u8
}

/// # Safety
/// Each pointer is the start of so many bytes as the number after it says.
#[no_mangle]
pub unsafe extern "C" fn plain_node_deliver(
    lent: &mut LentNode,
    link: u8,
    time: u64,
    bits: u64,
    frame: *const u8,
    frame_len: usize,
    outbox: *mut u8,
    outbox_len: usize,
    at: usize,
    kept: *mut u8,
    kept_len: usize,
    signatures: *mut u8,
    signatures_len: usize,
) -> u8 {
    let frame = from_raw_parts(frame, frame_len);
    let outbox = from_raw_parts_mut(outbox, outbox_len);
    let kept = from_raw_parts_mut(kept, kept_len);
    let signatures = from_raw_parts_mut(signatures, signatures_len);
    let arrival = Arrival { link, time, bits, observation: lent.observation, commit: lent.commit };
    lent.deliver(frame, arrival, outbox, at, kept, signatures) as u8
}

/// # Safety
/// Each pointer is the start of so many bytes as the number after it says.
#[no_mangle]
pub unsafe extern "C" fn plain_node_timer(
    lent: &mut LentNode,
    timer: u8,
    time: u64,
    outbox: *mut u8,
    outbox_len: usize,
    at: usize,
    kept: *const u8,
    kept_len: usize,
    signatures: *mut u8,
    signatures_len: usize,
) -> u8 {
    let outbox = from_raw_parts_mut(outbox, outbox_len);
    let kept = from_raw_parts(kept, kept_len);
    let signatures = from_raw_parts_mut(signatures, signatures_len);
    lent.timer(timer, time, outbox, at, kept, signatures) as u8
}

#[no_mangle]
pub extern "C" fn plain_sender_fresh(lent: &mut LentSender) -> u8 {
    lent.fresh() as u8
}

/// # Safety
/// Each pointer is the start of so many bytes as the number after it says.
#[no_mangle]
pub unsafe extern "C" fn plain_sender_transmit(
    lent: &mut LentSender,
    body: *const u8,
    body_len: usize,
    time: u64,
    permutation: *const u8,
    permutation_len: usize,
    waiting: *mut u8,
    waiting_len: usize,
) -> u8 {
    let body = from_raw_parts(body, body_len);
    let permutation = from_raw_parts(permutation, permutation_len);
    let waiting = from_raw_parts_mut(waiting, waiting_len);
    lent.transmit(body, time, permutation, waiting) as u8
}

/// # Safety
/// The pointer is the start of so many bytes as the number after it says.
#[no_mangle]
pub unsafe extern "C" fn plain_sender_timeout(
    lent: &mut LentSender,
    time: u64,
    waiting: *const u8,
    waiting_len: usize,
) -> u8 {
    lent.timeout(time, from_raw_parts(waiting, waiting_len)) as u8
}

#[no_mangle]
pub extern "C" fn plain_contract_fresh(lent: &mut LentContract) -> u8 {
    lent.fresh() as u8
}

/// # Safety
/// The pointer is the start of so many bytes as the number after it says.
#[no_mangle]
pub unsafe extern "C" fn plain_contract_submit(
    lent: &mut LentContract,
    body: *const u8,
    body_len: usize,
    transmitter: u8,
    time: u64,
    bits: u64,
) -> u8 {
    lent.submit(from_raw_parts(body, body_len), transmitter, time, bits) as u8
}

#[no_mangle]
pub extern "C" fn plain_contract_deposit(lent: &mut LentContract, amount: u64) -> u8 {
    lent.deposit(amount) as u8
}

#[no_mangle]
pub extern "C" fn plain_contract_withdraw(lent: &mut LentContract, member: u8) -> u8 {
    lent.withdraw(member) as u8
}
