//! Links the static library of the proved code, which `rt lib` in crates/exports writes beforehand.

fn main() {
    let folder = format!("{}/../../crates/exports/out", env!("CARGO_MANIFEST_DIR"));
    println!("cargo:rustc-link-search=native={folder}");
    println!("cargo:rustc-link-lib=static=exports");
    println!("cargo:rerun-if-changed={folder}/libexports.a");
}
