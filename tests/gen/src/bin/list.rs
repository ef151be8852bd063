//! list: writes the list of the oracle's answers that the program `replay` reads, to standard output.
use std::io::Write;

fn main() {
    let list = gen::replay::list(gen::replay::SEED);
    if let Err(e) = std::io::stdout().write_all(&list) {
        eprintln!("list: {e}");
        std::process::exit(1);
    }
}
