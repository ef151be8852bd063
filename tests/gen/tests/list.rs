//! The list that the program `replay` reads is the one that `list` writes.
use std::{fs, path::Path};

#[test]
fn the_list_is_the_oracles() {
    let path = Path::new(env!("CARGO_MANIFEST_DIR")).join("../../crates/replay/stdin");
    let kept = fs::read(&path).expect("crates/replay/stdin stands in the repository");
    assert!(
        kept == gen::replay::list(gen::replay::SEED),
        "write it anew: cargo run -p gen --bin list"
    );
}
