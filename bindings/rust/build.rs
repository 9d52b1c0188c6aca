//! Links the archive from the directory in DUSKVEYRA_LIB, or else from target/staticlib of this repository: libduskveyra.a, as
//! it is installed, where it is there, or else librecorder.a, as it is built.
//! A relative path counts from the directory of this file. The archive must be of the interface that src/sys.rs declares.

use std::path::{Path, PathBuf};
use std::{env, process};

const INTERFACE: &[u8] = b"duskveyra_interface_4";

fn main() {
    println!("cargo:rerun-if-env-changed=DUSKVEYRA_LIB");
    let package = env::var_os("CARGO_MANIFEST_DIR").unwrap_or_default();
    let directory = match env::var_os("DUSKVEYRA_LIB") {
        Some(given) => PathBuf::from(given),
        None => PathBuf::from("../../target/staticlib"),
    };
    // The linker runs in another directory, so the path must be a whole one.
    let directory = Path::new(&package).join(directory);
    let installed = directory.join("libduskveyra.a").is_file();
    let name = if installed { "duskveyra" } else { "recorder" };
    let archive = directory.join(format!("lib{name}.a"));
    println!("cargo:rerun-if-changed={}", archive.display());
    if !archive.is_file() {
        eprintln!(
            "no {}: run `scripts/build recorder` in the repository, or set DUSKVEYRA_LIB",
            archive.display()
        );
        process::exit(1);
    }
    // The archive's interface, by the symbol that sys.rs refers to: another one is told here and not by the linker.
    let bytes = std::fs::read(&archive).unwrap_or_default();
    if !bytes.windows(INTERFACE.len()).any(|part| part == INTERFACE) {
        eprintln!(
            "{} is of another interface than this package: it has no symbol {}",
            archive.display(),
            String::from_utf8_lossy(INTERFACE)
        );
        process::exit(1);
    }
    println!("cargo:rustc-link-search=native={}", directory.display());
    println!("cargo:rustc-link-lib=static={name}");
}
