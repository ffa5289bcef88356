//! Links libdaybook.a, which `./library` at the top of the repository leaves in target/daybook; DAYBOOK names another folder.
use std::path::PathBuf;

fn main() {
    println!("cargo:rerun-if-env-changed=DAYBOOK");
    let folder = match std::env::var_os("DAYBOOK") {
        Some(folder) => PathBuf::from(folder),
        None => PathBuf::from(std::env::var_os("CARGO_MANIFEST_DIR").unwrap()).join("../../target/daybook"),
    };
    println!("cargo:rerun-if-changed={}", folder.join("libdaybook.a").display());
    println!("cargo:rustc-link-search=native={}", folder.display());
    println!("cargo:rustc-link-lib=static=daybook");
}
