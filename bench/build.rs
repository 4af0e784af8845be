//! Links the static library that `rt lib` leaves in crates/zankurbe/out.
use std::path::Path;

fn main() {
    let here = std::env::var("CARGO_MANIFEST_DIR").expect("cargo names the package's folder");
    let built = Path::new(&here).join("../crates/zankurbe/out");
    println!("cargo:rustc-link-search=native={}", built.display());
    println!("cargo:rustc-link-lib=static=zankurbe");
    println!(
        "cargo:rerun-if-changed={}",
        built.join("libzankurbe.a").display()
    );
}
