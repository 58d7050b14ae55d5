//! Links the static library that `rt lib` writes in crates/link.

fn main() {
    let folder = concat!(env!("CARGO_MANIFEST_DIR"), "/../crates/link/out");
    println!("cargo:rustc-link-search=native={folder}");
    println!("cargo:rustc-link-lib=static=link");
    println!("cargo:rerun-if-changed={folder}/liblink.a");
}
