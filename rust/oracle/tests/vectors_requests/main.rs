//! The recorded calls of `crates/vectors_requests`: what 02's requests brought.
//! What the program there is fed and what it must write come from this package,
//! which shares nothing with the program. `VECTORS_WRITE=1 cargo test -p oracle
//! --test vectors_requests` writes the files anew; without it the files must be
//! what they would be.

#[path = "../common/mod.rs"]
mod common;
mod groups;
mod reports;

use std::path::PathBuf;

fn file(name: &str) -> PathBuf {
    let top = PathBuf::from(env!("CARGO_MANIFEST_DIR")).join("../..");
    top.join("crates/vectors_requests").join(name)
}

#[test]
fn the_files_say_what_the_oracle_says() {
    let (mut input, mut expected) = groups::recorded();
    let (more_input, more_expected) = reports::recorded();
    input.extend(more_input);
    expected += &more_expected;
    if std::env::var_os("VECTORS_WRITE").is_some() {
        std::fs::write(file("stdin"), &input).unwrap();
        std::fs::write(file("stdout"), &expected).unwrap();
    }
    assert!(input.len() < 262_144, "the program reads 262,144 bytes");
    assert_eq!(std::fs::read(file("stdin")).unwrap(), input);
    assert_eq!(std::fs::read_to_string(file("stdout")).unwrap(), expected);
}
