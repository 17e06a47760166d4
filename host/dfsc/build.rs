// Links target/staticlib/libdfsc.a of the repository (`tests/library dfsc`), or of the folder that DFSC_LIB names.
use std::env::var;
use std::path::Path;

fn main() {
    let dir = var("DFSC_LIB").unwrap_or_else(|_| format!("{}/../../target/staticlib", var("CARGO_MANIFEST_DIR").unwrap()));
    let library = format!("{dir}/libdfsc.a");
    println!("cargo:rerun-if-env-changed=DFSC_LIB");
    println!("cargo:rerun-if-changed={library}");
    if !Path::new(&library).exists() {
        eprintln!("dfsc: {library} is not there. Build it with `tests/library dfsc` in the repository, or name the folder that has libdfsc.a in DFSC_LIB.");
        std::process::exit(1);
    }
    let (arch, os) = (var("CARGO_CFG_TARGET_ARCH").unwrap_or_default(), var("CARGO_CFG_TARGET_OS").unwrap_or_default());
    if (arch.as_str(), os.as_str()) != ("x86_64", "linux") {
        eprintln!("dfsc: libdfsc.a is for x86-64 Linux, and the target is {arch} {os}.");
        std::process::exit(1);
    }
    println!("cargo:rustc-link-search=native={dir}");
    println!("cargo:rustc-link-lib=static=dfsc");
}
