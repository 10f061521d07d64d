//! Links the archive of proved calls on wide numbers, which `make archives` makes.
fn main() {
    let root = std::path::Path::new(env!("CARGO_MANIFEST_DIR")).join("../../target/staticlib");
    println!("cargo:rustc-link-search=native={}", root.display());
    println!("cargo:rustc-link-lib=static=wide_calls");
    println!("cargo:rerun-if-changed={}", root.join("libwide_calls.a").display());
}
