//! Says where the library is that `bin/build-lib` builds.

fn main() {
    let folder = concat!(env!("CARGO_MANIFEST_DIR"), "/../../target/staticlib");
    println!("cargo:rustc-link-search=native={folder}");
    println!("cargo:rustc-link-lib=static=oakentwirl");
    println!("cargo:rerun-if-changed={folder}/liboakentwirl.a");
}
