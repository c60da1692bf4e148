// Where `packaging/staticlib` writes the static libraries.
fn main() {
    let root = std::env::var("CARGO_MANIFEST_DIR").unwrap();
    println!("cargo:rustc-link-search=native={root}/../target/staticlib");
    println!("cargo:rerun-if-changed={root}/../target/staticlib");
}
