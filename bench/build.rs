//! With DUSKVEYRA_BEFORE, the directory of an earlier librecorder.a, its functions below are linked too, each under the
//! name `before_` and the rest of its own.

use std::env;
use std::path::{Path, PathBuf};
use std::process::{self, Command};

const FUNCTIONS: [&str; 5] = ["write", "read", "fresh", "feed", "feed_block"];

fn main() {
    println!("cargo:rerun-if-env-changed=DUSKVEYRA_BEFORE");
    println!("cargo:rustc-check-cfg=cfg(before)");
    let Some(directory) = env::var_os("DUSKVEYRA_BEFORE") else {
        return;
    };
    let archive = Path::new(&directory).join("librecorder.a");
    println!("cargo:rerun-if-changed={}", archive.display());
    let out = PathBuf::from(env::var_os("OUT_DIR").unwrap_or_default());
    // Both libraries export the same names: of the earlier one only these stay visible, under others.
    let names = FUNCTIONS.iter().flat_map(|function| {
        [
            format!("--redefine-sym=duskveyra_{function}=before_{function}"),
            format!("--keep-global-symbol=before_{function}"),
        ]
    });
    let renamed = Command::new("objcopy")
        .args(names)
        .arg(&archive)
        .arg(out.join("libbefore.a"))
        .status();
    if !renamed.is_ok_and(|status| status.success()) {
        eprintln!("objcopy could not make a copy of {}", archive.display());
        process::exit(1);
    }
    println!("cargo:rustc-link-search=native={}", out.display());
    println!("cargo:rustc-link-lib=static=before");
    println!("cargo:rustc-cfg=before");
}
