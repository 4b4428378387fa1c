//! Links libmodestsilk.a from the folder that MODESTSILK_LIB names, or from
//! the project's crates/modestsilk/out.

fn main() {
    let folder = std::env::var("MODESTSILK_LIB")
        .unwrap_or_else(|_| concat!(env!("CARGO_MANIFEST_DIR"), "/../../crates/modestsilk/out").into());
    println!("cargo:rerun-if-env-changed=MODESTSILK_LIB");
    println!("cargo:rerun-if-changed={folder}/libmodestsilk.a");
    println!("cargo:rustc-link-search=native={folder}");
    println!("cargo:rustc-link-lib=static=modestsilk");
}
