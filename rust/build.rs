// Links the proved static library, which `rt lib` in crates/kiqsaryn writes.
fn main() {
    let root = std::env::var("CARGO_MANIFEST_DIR").expect("cargo sets it");
    let folder = format!("{root}/../crates/kiqsaryn/out");
    let library = format!("{folder}/libkiqsaryn.a");
    println!("cargo:rerun-if-changed={library}");
    if !std::path::Path::new(&library).exists() {
        println!("cargo:warning=the proved library is missing: run `rt lib` in crates/kiqsaryn first");
        std::process::exit(1);
    }
    println!("cargo:rustc-link-search=native={folder}");
    println!("cargo:rustc-link-lib=static=kiqsaryn");
}
