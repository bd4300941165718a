//! Reads a script from standard input and prints the lines that docs/REPLAY.md says.

use rules::script::{records, Machine, Outcome};
use std::io::{BufWriter, Read, Write};

fn main() {
    let mut script = Vec::new();
    std::io::stdin().lock().read_to_end(&mut script).expect("standard input can be read");
    let mut out = BufWriter::new(std::io::stdout().lock());
    let mut machine = Machine::default();
    for (letter, bytes) in records(&script) {
        match machine.run(letter, bytes) {
            Outcome::Set => {}
            Outcome::Call(_, line) => out.write_all(line.as_bytes()).expect("standard output can be written"),
            Outcome::End => break,
        }
    }
    out.flush().expect("standard output can be written");
}
