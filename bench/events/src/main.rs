//! `events FILE` writes the benchmark's events for n = 4, 7, 16 and 31; `events FILE SCRIPT` the calls of a script of docs/REPLAY.md.

mod event;
mod feed;
mod layout;
mod member;
mod members;
mod payer;
mod paying;
mod script;
mod sending;
mod transmitter;

use std::fs::{read, File};
use std::io::{BufWriter, Result, Write};

fn write_script(script: &str, out: &mut impl Write) -> Result<()> {
    let mut result = Ok(());
    let mut number = 0;
    script::calls(&read(script)?, |event| {
        number += 1;
        if result.is_ok() {
            result = event.named(&format!("call {number} of the script")).write(out);
        }
    });
    result
}

fn main() -> Result<()> {
    let mut words = std::env::args().skip(1);
    let Some(path) = words.next() else {
        eprintln!("events FILE [SCRIPT]");
        std::process::exit(2);
    };
    let mut out = BufWriter::new(File::create(path)?);
    if let Some(script) = words.next() {
        write_script(&script, &mut out)?;
    } else {
        for n in [4, 7, 16, 31] {
            for event in members::events(n).iter().chain(&sending::events(n)).chain(&paying::events(n)) {
                event.write(&mut out)?;
            }
        }
    }
    out.flush()
}
