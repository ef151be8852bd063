//! What `solidjob` should print for the job on standard input.
use std::io::{Read, Write};

fn main() -> std::io::Result<()> {
    let mut job = Vec::new();
    std::io::stdin().read_to_end(&mut job)?;
    std::io::stdout().write_all(oracle::solidjob(&job).as_bytes())
}
