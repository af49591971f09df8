//! Says where the static library is that `steps` alone links.

fn main() {
    let here = std::env::var("CARGO_MANIFEST_DIR").expect("cargo sets CARGO_MANIFEST_DIR");
    println!("cargo:rustc-link-search=native={here}/../target/staticlib");
    println!("cargo:rerun-if-changed=build.rs");
    println!("cargo:rerun-if-changed={here}/../target/staticlib/liboutside.a");
}
