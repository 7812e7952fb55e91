//! Links the proved library that `panel/library` builds.
fn main() {
    let root = std::env::var("CARGO_MANIFEST_DIR").expect("cargo sets it");
    println!("cargo:rustc-link-search=native={root}/../target/staticlib");
    println!("cargo:rustc-link-lib=static=panel");
    println!("cargo:rerun-if-changed={root}/../target/staticlib/libpanel.a");
}
