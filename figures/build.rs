//! Links the archive of crates/pkcs1_c, as host/build leaves it.

fn main() {
    let archive = concat!(env!("CARGO_MANIFEST_DIR"), "/../target/staticlib");
    println!("cargo:rustc-link-search=native={archive}");
    println!("cargo:rustc-link-lib=static=pkcs1");
    println!("cargo:rerun-if-changed={archive}/libpkcs1.a");
}
