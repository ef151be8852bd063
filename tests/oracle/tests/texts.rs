//! Every error text of docs/src stands in the table once, with a number or as left out.
use oracle::refusal::{number, LEFT_OUT, NUMBERS};
use std::path::{Path, PathBuf};

const MAKERS: [&str; 5] = [
    "Error::unimplemented(",
    "Error::unsupported(",
    "Error::degenerate(",
    "Error::invalid_argument(",
    "Error::internal(",
];

fn files(at: &Path, out: &mut Vec<PathBuf>) {
    for entry in std::fs::read_dir(at).expect("docs/src can be read") {
        let path = entry.expect("an entry").path();
        if path.is_dir() {
            files(&path, out);
        } else if path.extension().is_some_and(|e| e == "rs") {
            out.push(path);
        }
    }
}

/// The first string after each maker of errors; a formatted one has none.
fn texts(source: &str) -> Vec<String> {
    let mut out = Vec::new();
    for maker in MAKERS {
        for (at, _) in source.match_indices(maker) {
            let rest = source[at + maker.len()..].trim_start();
            if let Some(rest) = rest.strip_prefix('"') {
                out.push(rest[..rest.find('"').expect("an end")].to_string());
            }
        }
    }
    out
}

fn all_texts() -> Vec<String> {
    let mut paths = Vec::new();
    let root = Path::new(env!("CARGO_MANIFEST_DIR")).join("../../docs/src");
    files(&root, &mut paths);
    let read = |p: &PathBuf| texts(&std::fs::read_to_string(p).expect("a source"));
    paths.iter().flat_map(read).collect()
}

#[test]
fn every_text_is_listed_once() {
    let found = all_texts();
    assert!(found.len() > 50);
    for text in &found {
        let times = NUMBERS.iter().filter(|(t, _)| t == text).count()
            + LEFT_OUT.iter().filter(|t| *t == text).count();
        assert_eq!(times, 1, "{text}");
    }
    let listed = NUMBERS.iter().map(|(t, _)| t).chain(LEFT_OUT);
    for text in listed {
        assert!(found.iter().any(|f| f == text), "{text} is not in docs/src");
    }
}

#[test]
#[should_panic(expected = "no number of document 01")]
fn an_unknown_text_panics() {
    number("some other text");
}
