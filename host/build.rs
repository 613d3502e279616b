//! The library is made by `rt lib` in crates/tickingtor, in that crate's folder out.
fn main() {
    let folder = concat!(env!("CARGO_MANIFEST_DIR"), "/../crates/tickingtor/out");
    println!("cargo:rustc-link-search=native={folder}");
    println!("cargo:rustc-link-lib=static=tickingtor");
    println!("cargo:rerun-if-changed={folder}/libtickingtor.a");
}
