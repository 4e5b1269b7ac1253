//! Says where tools/archive puts the library, which the binaries with the feature `calls` link.

fn main() {
    let folder = format!("{}/../crates/patskvime/out", env!("CARGO_MANIFEST_DIR"));
    println!("cargo:rustc-link-search=native={folder}");
    println!("cargo:rerun-if-changed={folder}/libpatskvime.a");
}
