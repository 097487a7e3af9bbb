//! Links libembed.a from the folder LIR_LIBRARY, or from target/staticlib of the repository, where `bindings/library` writes it.

fn main() {
    let folder = std::env::var("LIR_LIBRARY").unwrap_or_else(|_| {
        let here = std::env::var("CARGO_MANIFEST_DIR").expect("cargo names the crate's folder");
        format!("{here}/../../target/staticlib")
    });
    println!("cargo:rerun-if-env-changed=LIR_LIBRARY");
    println!("cargo:rerun-if-changed={folder}/libembed.a");
    println!("cargo:rustc-link-search=native={folder}");
    println!("cargo:rustc-link-lib=static=embed");
}
