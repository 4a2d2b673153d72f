//! Links the static library of the crate measure, which `host/run bench` writes.

fn main() {
    let folder = concat!(env!("CARGO_MANIFEST_DIR"), "/../../target/staticlib");
    println!("cargo::rustc-link-search=native={folder}");
    println!("cargo::rustc-link-lib=static=measure");
    println!("cargo::rerun-if-changed={folder}/libmeasure.a");
}
