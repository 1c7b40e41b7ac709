// Links the static library that `rt lib` writes in crates/nedrulov; NEDRULOV_LIB names another folder.
use std::env;
use std::path::PathBuf;

fn main() {
    let folder = env::var_os("NEDRULOV_LIB").map(PathBuf::from).unwrap_or_else(|| {
        PathBuf::from(env::var_os("CARGO_MANIFEST_DIR").expect("cargo sets it")).join("../../crates/nedrulov/out")
    });
    println!("cargo:rustc-link-search=native={}", folder.display());
    println!("cargo:rustc-link-lib=static=nedrulov");
    println!("cargo:rerun-if-env-changed=NEDRULOV_LIB");
    println!("cargo:rerun-if-changed={}", folder.join("libnedrulov.a").display());
}
