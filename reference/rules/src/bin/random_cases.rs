//! `random_cases SEED CALLS` writes a random script of at least CALLS calls to standard output.

use rules::cases::builder::Builder;
use rules::cases::random;
use rules::cases::rng::Rng;
use std::io::{BufWriter, Write};

fn main() {
    let numbers: Vec<u64> = std::env::args().skip(1).filter_map(|word| word.parse().ok()).collect();
    let [seed, calls] = numbers[..] else {
        eprintln!("random_cases SEED CALLS");
        std::process::exit(2);
    };
    let mut builder = Builder::new();
    let mut rng = Rng::new(seed);
    let mut out = BufWriter::new(std::io::stdout().lock());
    while (builder.calls as u64) < calls {
        random::episode(&mut builder, &mut rng);
        out.write_all(&builder.script).expect("standard output can be written");
        builder.script.clear();
        builder.output.clear();
    }
    out.flush().expect("standard output can be written");
    if std::env::var_os("TABLE").is_some() {
        eprint!("{}", builder.table());
    }
}
