//! Document 01 in plain Rust as one would write it to run: the state is altered in place, nothing is copied that need not be,
//! nothing is allocated. Its calls are those of `include/wederburh.h`, under the names `plain_*`.

#![no_std]

mod boundary;
mod config;
mod contract;
mod follower;
mod frame;
mod leader;
mod node;
mod outbox;
mod pacemaker;
mod report;
mod sender;

#[panic_handler]
fn panic(_: &core::panic::PanicInfo) -> ! {
    loop {}
}
