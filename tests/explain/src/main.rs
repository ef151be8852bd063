//! explain FILE: where the oracle refuses it, in words.
use explain::{explained, Asked, FIRST};
use std::{env, fs, io, process::ExitCode};

const USAGE: &str = "usage: explain [--cells | --offset DISTANCE | --hollow THICKNESS] FILE
A job is fused, or cut into cells by --cells; of a cell the solid check is made, or an offset or a
hollow; a facet is meshed. '-' is standard input. Prints the number, what it says, and where it arises.
Status: 0 answered, 1 refused, 2 trouble.";

fn read(path: &str) -> io::Result<Vec<u8>> {
    match path {
        "-" => {
            let mut out = Vec::new();
            io::Read::read_to_end(&mut io::stdin(), &mut out)?;
            Ok(out)
        }
        _ => fs::read(path),
    }
}

/// The call that the words name, if any, and the file.
fn words(all: &[String]) -> Option<(Option<Asked>, &str)> {
    let list: Vec<_> = all.iter().map(String::as_str).collect();
    match list.as_slice() {
        [file] => Some((None, file)),
        ["--cells", file] => Some((Some(Asked::Cells), file)),
        ["--offset", by, file] => Some((Some(Asked::Offset(by.parse().ok()?)), file)),
        ["--hollow", by, file] => Some((Some(Asked::Hollow(by.parse().ok()?)), file)),
        _ => None,
    }
}

fn main() -> ExitCode {
    let all: Vec<_> = env::args().skip(1).collect();
    if all == ["--help"] || all == ["-h"] {
        println!("{FIRST}\n{USAGE}");
        return ExitCode::SUCCESS;
    }
    let Some((asked, path)) = words(&all) else {
        eprintln!("{USAGE}");
        return ExitCode::from(2);
    };
    let bytes = match read(path) {
        Ok(bytes) => bytes,
        Err(why) => {
            eprintln!("explain: cannot read {path}: {why}");
            return ExitCode::from(2);
        }
    };
    let (lines, number) = explained(&bytes, asked.unwrap_or_else(|| Asked::of(&bytes)));
    let text = lines.join("\n") + "\n";
    if let Err(why) = io::Write::write_all(&mut io::stdout(), text.as_bytes()) {
        eprintln!("explain: cannot write: {why}");
        return ExitCode::from(2);
    }
    ExitCode::from(u8::from(number != 0))
}
