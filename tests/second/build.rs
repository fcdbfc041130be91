//! Says where libcetv.a is: the folder named by CETV_LIBRARY, or target/staticlib of the repository.
use std::{env, path::PathBuf};

fn main() {
    let package = PathBuf::from(env::var("CARGO_MANIFEST_DIR").unwrap());
    let folder = env::var("CETV_LIBRARY").map(PathBuf::from).unwrap_or_else(|_| package.join("../../target/staticlib"));
    println!("cargo:rerun-if-env-changed=CETV_LIBRARY");
    println!("cargo:rerun-if-changed={}", folder.join("libcetv.a").display());
    println!("cargo:rustc-link-search=native={}", folder.display());
}
