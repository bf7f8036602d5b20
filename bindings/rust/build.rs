// Links the static library, which `tools/build exports` puts into target/staticlib of the repository.
fn main() {
    let library = std::path::Path::new(env!("CARGO_MANIFEST_DIR")).join("../../target/staticlib");
    println!("cargo:rustc-link-search=native={}", library.display());
    println!("cargo:rustc-link-lib=static=exports");
    println!("cargo:rerun-if-changed={}", library.join("libexports.a").display());
}
