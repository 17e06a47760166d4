// Links target/staticlib/libtesting.a of the repository (`tests/library testing`). BENCH_SHIFT moves the code by so many bytes.
fn main() {
    let dir = format!("{}/../../target/staticlib", std::env::var("CARGO_MANIFEST_DIR").unwrap());
    println!("cargo:rustc-link-search=native={dir}");
    println!("cargo:rerun-if-env-changed=BENCH_SHIFT");
    println!("cargo:rustc-env=BENCH_SHIFT={}", std::env::var("BENCH_SHIFT").unwrap_or("0".into()));
    println!("cargo:rerun-if-changed={dir}/libtesting.a");
    println!("cargo:rustc-link-lib=static=testing");
}
