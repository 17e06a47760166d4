// Links target/staticlib/libtesting.a of the repository (`tests/library testing`), or of the folder that TESTING_LIB names.
fn main() {
    let dir = std::env::var("TESTING_LIB").unwrap_or_else(|_| format!("{}/../../target/staticlib", std::env::var("CARGO_MANIFEST_DIR").unwrap()));
    println!("cargo:rerun-if-env-changed=TESTING_LIB");
    println!("cargo:rerun-if-changed={dir}/libtesting.a");
    println!("cargo:rustc-link-search=native={dir}");
    println!("cargo:rustc-link-lib=static=testing");
}
