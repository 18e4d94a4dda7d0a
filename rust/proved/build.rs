//! Links the proved library. Where the project or a release stands around this
//! crate it is theirs: `proof/` has it in a release, and `tools/library` writes
//! it in the project. Elsewhere it is the installed one: in the folder
//! that `CESR_LIB_DIR` names, or where pkg-config finds `cesr`.

use std::env;
use std::path::{Path, PathBuf};
use std::process::{exit, Command};

fn main() {
    println!("cargo:rerun-if-env-changed=CESR_LIB_DIR");
    let top = Path::new(env!("CARGO_MANIFEST_DIR")).join("../..");
    let (directory, name) = match top.join("crates.txt").exists() {
        true => (around(&top), "exports"),
        false => (installed(), "cesr"),
    };
    let archive = directory.join(format!("lib{name}.a"));
    println!("cargo:rerun-if-changed={}", archive.display());
    if !archive.exists() {
        fail(&format!(
            "The proved library is missing: {}.",
            archive.display()
        ));
    }
    println!("cargo:rustc-link-search=native={}", directory.display());
    println!("cargo:rustc-link-lib=static={name}");
}

/// In a release, or in the project.
fn around(top: &Path) -> PathBuf {
    let proof = top.join("proof");
    if proof.join("libexports.a").exists() {
        return proof;
    }
    let built = top.join("target/staticlib");
    if !built.join("libexports.a").exists() {
        fail(
            "The proved library is missing: target/staticlib/libexports.a.\n\
             Run `tools/library` at the repository's top first.",
        );
    }
    built
}

/// The one that is installed, of this version.
fn installed() -> PathBuf {
    if let Some(directory) = env::var_os("CESR_LIB_DIR") {
        return PathBuf::from(directory);
    }
    let version = concat!("--exact-version=", env!("CARGO_PKG_VERSION"));
    let mut asked = Command::new("pkg-config");
    asked.args([version, "--print-errors", "--variable=libdir", "cesr"]);
    match asked.output() {
        Ok(said) if said.status.success() => {
            PathBuf::from(String::from_utf8_lossy(&said.stdout).trim())
        }
        Ok(said) => fail(&String::from_utf8_lossy(&said.stderr)),
        Err(why) => fail(&format!(
            "pkg-config: {why}. CESR_LIB_DIR may name the folder of libcesr.a."
        )),
    }
}

fn fail(why: &str) -> ! {
    eprintln!("{why}");
    exit(1)
}
