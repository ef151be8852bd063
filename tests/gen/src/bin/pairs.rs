//! Writes the pairs of document 01 as job files into the directory that is named.
use std::{env, fs, io, path::Path};

fn main() -> io::Result<()> {
    let directory = env::args().nth(1).expect("the directory for the job files");
    for (name, job) in gen::pairs::files() {
        fs::write(Path::new(&directory).join(name), job.bytes())?;
    }
    Ok(())
}
