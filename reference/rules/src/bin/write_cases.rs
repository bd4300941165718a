//! `write_cases DIR` writes DIR/stdin and DIR/stdout, the gate's script and the lines that must come out.
//! The number of calls by letter and code goes to standard error.

use std::path::Path;

fn main() {
    let Some(directory) = std::env::args().nth(1) else {
        eprintln!("write_cases DIR");
        std::process::exit(2);
    };
    let builder = rules::cases::gate();
    assert!(builder.script.len() <= 1_500_000, "the script is {} bytes", builder.script.len());
    let directory = Path::new(&directory);
    std::fs::create_dir_all(directory).expect("the directory can be made");
    std::fs::write(directory.join("stdin"), &builder.script).expect("stdin can be written");
    std::fs::write(directory.join("stdout"), &builder.output).expect("stdout can be written");
    eprint!("{}", builder.table());
    eprintln!("stdin {} bytes, stdout {} bytes", builder.script.len(), builder.output.len());
}
